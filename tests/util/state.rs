//! A store's state.
use super::files::{prints, put};
use super::theirs::{MANIFEST, their_store};
use leveldb_base::error::Result;
use leveldb_env::env::Env;
use leveldb_env::mem_env::MemEnv;
use std::process::Abort;

const STATE: &[u8] =
    b"comparator leveldb.BytewiseComparator\nmanifest 2\nlog 6\nprevious log 0\nnext file 9\nlast sequence 8\nlevel 2: 1 tables, 249 bytes\n  8 249 '\\x00\\x7f\\xff~ ' @ 8 : 1 .. 'key04' @ 5 : 1\nlog file 6: 58 bytes\n";

#[test]
fn a_stores_state(rt: HostRuntime) -> Result<()> {
    let mut env = their_store(rt.alloc())?;
    assert!(rt; prints(rt.alloc(), &mut env, &["stat", "db"], STATE, 0)?);
    Ok(())
}

/// It is there while the store is locked, and logs that no opening reads aren't in it.
#[test]
fn the_state_of_a_locked_store(rt: HostRuntime) -> Result<()> {
    let mut env = their_store(rt.alloc())?;
    put(rt.alloc(), &mut env, "db/000005.log", b"old")?;
    env.lock("db/LOCK")?;
    assert!(rt; prints(rt.alloc(), &mut env, &["stat", "db"], STATE, 0)?);
    Ok(())
}

/// Of a manifest with a bad end it is what an opening finds.
#[test]
fn the_state_by_the_first_edits(rt: HostRuntime) -> Result<()> {
    let mut env = their_store(rt.alloc())?;
    put(rt.alloc(), &mut env, "db/MANIFEST-000002", &MANIFEST[..120])?;
    let text =
        b"db/MANIFEST-000002: offset 98: data cut short, as a crash may leave an end\ncomparator leveldb.BytewiseComparator\nmanifest 2\nlog 4\nprevious log 0\nnext file 6\nlast sequence 5\nlevel 2: 1 tables, 237 bytes\n  5 237 'key00' @ 1 : 1 .. 'key04' @ 5 : 1\nlog file 6: 58 bytes\n";
    assert!(rt; prints(rt.alloc(), &mut env, &["stat", "db"], text, 0)?);
    Ok(())
}

#[test]
fn no_store(rt: HostRuntime) -> Result<()> {
    let mut env = MemEnv::new(rt.alloc());
    let text = b"db: Corruption: missing file: db/CURRENT\n";
    assert!(rt; prints(rt.alloc(), &mut env, &["stat", "db"], text, 1)?);
    assert!(rt; prints(rt.alloc(), &mut env, &["check", "db"], text, 1)?);
    Ok(())
}

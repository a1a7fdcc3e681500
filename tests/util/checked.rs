//! Checks of stores whose files are damaged.
use super::files::{log_of, prints, put, run};
use super::theirs::{LOG, MANIFEST, TABLE, their_store};
use leveldb_base::error::Result;
use leveldb_env::env::Env;
use leveldb_env::env::whole_files::read_file;
use std::alloc::Global;
use std::process::Abort;
use support::change_byte;

/// Whether a check of the store with these bytes as one of its files prints this, with this status.
fn finds(alloc: Global, path: &str, bytes: &[u8], text: &[u8], status: u8) -> Result<bool> {
    let mut env = their_store(alloc)?;
    put(alloc, &mut env, path, bytes)?;
    let is_found = prints(alloc, &mut env, &["check", "db"], text, status)?;
    Ok(is_found && read_file(alloc, &mut env, path)?.as_slice() == bytes)
}

/// These bytes with one raised.
fn changed(alloc: Global, bytes: &[u8], at: usize) -> Result<Vec<u8>> {
    let mut bytes = bytes.to_vec(alloc)?;
    change_byte(&mut bytes, at, 1);
    Ok(bytes)
}

#[test]
fn a_manifest_with_records_after_damage(rt: HostRuntime) -> Result<()> {
    let bytes = changed(rt.alloc(), MANIFEST, 200)?;
    let last =
        b"db/MANIFEST-000002: offset 146: wrong checksum\ndb/000007.ldb: NotFound: no such file: db/000007.ldb\ndb/000005.ldb: NotFound: no such file: db/000005.ldb\n";
    assert!(rt; finds(rt.alloc(), "db/MANIFEST-000002", &bytes, last, 1)?);
    let bytes = changed(rt.alloc(), MANIFEST, 45)?;
    let text =
        b"db/MANIFEST-000002: offset 35: wrong checksum\ndb/MANIFEST-000002: offset 50: whole records come after that, which an opening leaves out\n";
    assert!(rt; finds(rt.alloc(), "db/MANIFEST-000002", &bytes, text, 1)?);
    Ok(())
}

#[test]
fn a_log_with_records_after_damage(rt: HostRuntime) -> Result<()> {
    let bytes = changed(rt.alloc(), LOG, 20)?;
    let text =
        b"db/000006.log: offset 0: wrong checksum\ndb/000006.log: offset 39: whole records come after that, which an opening leaves out\n";
    assert!(rt; finds(rt.alloc(), "db/000006.log", &bytes, text, 1)?);
    Ok(())
}

/// An end that a crash may leave isn't wrong, unless records come after it.
#[test]
fn a_torn_log(rt: HostRuntime) -> Result<()> {
    let text = b"db/000006.log: offset 39: data cut short, as a crash may leave an end\n";
    assert!(rt; finds(rt.alloc(), "db/000006.log", &LOG[..50], text, 0)?);
    let mut bytes = LOG.to_vec(rt.alloc())?;
    bytes.resize(32768, 0)?;
    bytes.extend_from_slice(LOG)?;
    let text =
        b"db/000006.log: offset 58: zeros in place of a record, as a crash may leave an end\ndb/000006.log: offset 32768: whole records come after that, which an opening leaves out\n";
    assert!(rt; finds(rt.alloc(), "db/000006.log", &bytes, text, 1)?);
    Ok(())
}

#[test]
fn tables(rt: HostRuntime) -> Result<()> {
    let bytes = changed(rt.alloc(), TABLE, 5)?;
    let text = b"db/000008.ldb: Corruption: block at 0: wrong checksum\n";
    assert!(rt; finds(rt.alloc(), "db/000008.ldb", &bytes, text, 1)?);
    let text =
        b"db/000008.ldb: has 40 bytes, and the manifest says 249\ndb/000008.ldb: Corruption: too short for a footer\n";
    assert!(rt; finds(rt.alloc(), "db/000008.ldb", &TABLE[..40], text, 1)?);
    Ok(())
}

/// Each byte of a store's tables, manifest and logs is read: a change of any is told, also where a
/// crash may leave such an end.
#[test]
fn each_byte_is_read(rt: HostRuntime) -> Result<()> {
    let files: &[(&str, &[u8])] = &[
        ("db/000008.ldb", TABLE),
        ("db/MANIFEST-000002", MANIFEST),
        ("db/000006.log", LOG),
    ];
    for (path, bytes) in files {
        for at in 0..bytes.len() {
            let changed = changed(rt.alloc(), bytes, at)?;
            let mut env = their_store(rt.alloc())?;
            put(rt.alloc(), &mut env, path, &changed)?;
            let printed = run(rt.alloc(), &mut env, &["check", "db"])?;
            assert!(rt; !printed.out.is_empty(), "byte {at} of {path}");
        }
    }
    Ok(())
}

#[test]
fn missing_files(rt: HostRuntime) -> Result<()> {
    let mut env = their_store(rt.alloc())?;
    env.delete("db/000008.ldb")?;
    let text = b"db/000008.ldb: NotFound: no such file: db/000008.ldb\n";
    assert!(rt; prints(rt.alloc(), &mut env, &["check", "db"], text, 1)?);
    env.delete("db/MANIFEST-000002")?;
    let text = b"db/MANIFEST-000002: offset 0: NotFound: no such file: db/MANIFEST-000002\n";
    assert!(rt; prints(rt.alloc(), &mut env, &["check", "db"], text, 1)?);
    Ok(())
}

/// A table under LevelDB's old name is read.
#[test]
fn old_names_of_tables(rt: HostRuntime) -> Result<()> {
    let mut env = their_store(rt.alloc())?;
    env.rename("db/000008.ldb", "db/000008.sst")?;
    assert!(rt; prints(rt.alloc(), &mut env, &["check", "db"], b"", 0)?);
    Ok(())
}

/// A log's record that is no batch is found, and one that no opening reads isn't looked at.
#[test]
fn records_that_are_no_batch(rt: HostRuntime) -> Result<()> {
    let log = log_of(rt.alloc(), &[b"short", b"\0\0\0\0\0\0\0\0\x01\0\0\0"])?;
    let text =
        b"db/000006.log: offset 0: a record too small for a batch\ndb/000006.log: offset 12: WriteBatch has wrong count\n";
    assert!(rt; finds(rt.alloc(), "db/000006.log", &log, text, 1)?);
    assert!(rt; finds(rt.alloc(), "db/000005.log", &log, b"", 0)?);
    Ok(())
}

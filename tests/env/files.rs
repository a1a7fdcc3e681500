//! Any sink and any source at work: what a caller knows of the vector, slice or file that they
//! write or read.

use super::disks::no_tails;
use leveldb_base::error::{Result, Status, StatusCode};
use leveldb_env::env::source::read_to_end;
use leveldb_env::env::whole_files::{found, read_file, replace_file, write_file};
use leveldb_env::env::{Env, EnvFile, Sink, Source};
use leveldb_env::mem_env::{MemEnv, MemHandle};
use std::alloc::Global;
use std::process::Abort;
use support::failed_with;

fn put_pair<S: Sink>(sink: &mut S, first: &[u8], second: &[u8]) -> Result<()> {
    sink.put_all(first)?;
    sink.put_all(second)
}

fn pair(alloc: Global, first: &[u8], second: &[u8]) -> Result<Vec<u8>> {
    let mut all = Vec::new(alloc);
    put_pair(&mut all, first, second)?;
    all.flush()?;
    Ok(all)
}

fn put_pair_after(all: &mut Vec<u8>, first: &[u8], second: &[u8]) -> Result<()> {
    let mut borrowed = all;
    put_pair(&mut borrowed, first, second)
}

fn put_pair_in_file<E: Env>(
    env: &mut E,
    file: &mut E::File,
    first: &[u8],
    second: &[u8],
) -> Result<()> {
    put_pair(&mut EnvFile { env, file }, first, second)
}

fn flush_file<E: Env>(env: &mut E, file: &mut E::File) -> Result<()> {
    EnvFile { env, file }.flush()
}

fn rest_of(alloc: Global, bytes: &[u8]) -> Result<Vec<u8>> {
    let mut source = bytes;
    read_to_end(alloc, &mut source)
}

/// A crash at any moment leaves the old file or the new one, where the old one was kept.
fn replace_kept<E: Env>(
    alloc: Global,
    env: &mut E,
    temp: &str,
    name: &str,
    bytes: &[u8],
) -> Result<()> {
    replace_file(alloc, env, temp, name, bytes)
}

/// One file after another gets these bytes, each by way of the same temporary file.
fn replace_each<E: Env>(
    alloc: Global,
    env: &mut E,
    temp: &str,
    names: &[&str],
    bytes: &[u8],
) -> Result<()> {
    for name in names {
        replace_file(alloc, env, temp, name, bytes)?;
    }
    Ok(())
}

#[test]
fn bytes_are_appended(rt: HostRuntime) -> Result<()> {
    let mut all = pair(rt.alloc(), b"ab", b"c")?;
    put_pair_after(&mut all, b"", b"de")?;
    assert!(rt; all.as_slice() == b"abcde".as_slice());
    let mut borrowed = &mut all;
    borrowed.flush()?;
    assert!(rt; all.as_slice() == b"abcde".as_slice());
    Ok(())
}

/// Whether all bytes of a slice of this length are read.
fn is_read(alloc: Global, len: usize) -> Result<bool> {
    let bytes = vec![in alloc; 7u8; len]?;
    Ok(rest_of(alloc, &bytes)?.as_slice() == bytes.as_slice())
}

#[test]
fn a_slice_gives_all_its_bytes(rt: HostRuntime) -> Result<()> {
    for len in [0, 1, 4095, 4096, 4097, 10_000] {
        assert!(rt; is_read(rt.alloc(), len)?, "of {len}");
    }
    Ok(())
}

/// A source that gives `left` bytes, one at each read, and then fails.
#[derive(Drop)]
struct Halting {
    left: u8,
}

impl Source for Halting {
    ghost gives = { ? };

    fn read_some(&mut self, target: &mut [u8]) -> Result<usize> {
        let Some(first) = target.first_mut() else {
            return Ok(0);
        };
        if self.left == 0 {
            return Err(Status {
                code: StatusCode::IOError,
                err: None,
            });
        }
        self.left -= 1;
        *first = self.left;
        Ok(1)
    }
}

#[test]
fn a_failed_read_is_passed_on(rt: HostRuntime) -> Result<()> {
    for left in [0, 1, 3] {
        let mut source = Halting { left };
        let answer = read_to_end(rt.alloc(), &mut &mut source);
        assert!(rt; failed_with(answer, StatusCode::IOError)?, "after {left}");
        assert!(rt; source.left == 0);
    }
    Ok(())
}

/// Whether a file has these bytes.
fn has_bytes(env: &mut MemEnv, alloc: Global, name: &str, bytes: &[u8]) -> Result<bool> {
    Ok(read_file(alloc, env, name)?.as_slice() == bytes)
}

/// Whether a file has these bytes after a crash without tails.
fn keeps(env: &MemEnv, alloc: Global, name: &str, bytes: &[u8]) -> Result<bool> {
    let mut left = env.crashed(alloc, &no_tails(alloc, false))?;
    has_bytes(&mut left, alloc, name, bytes)
}

const LOG: &str = "db/000003.log";

/// Asserts that an open file has these bytes, and that a crash keeps them once the file is flushed.
fn assert_flushed(
    rt: &(impl Abort + AllocGlobal),
    env: &mut MemEnv,
    file: &mut MemHandle,
    bytes: &[u8],
) -> Result<()> {
    assert!(rt; has_bytes(env, rt.alloc(), LOG, bytes)?);
    assert!(rt; keeps(env, rt.alloc(), LOG, b"")?, "not flushed");
    flush_file(env, file)?;
    assert!(rt; keeps(env, rt.alloc(), LOG, bytes)?, "flushed");
    Ok(())
}

#[test]
fn pieces_go_into_a_file_and_come_back(rt: HostRuntime) -> Result<()> {
    let mut env = MemEnv::new(rt.alloc());
    let mut file = env.open_writable_file(LOG)?;
    let long = vec![in rt.alloc(); 7u8; 10_000]?;
    put_pair_in_file(&mut env, &mut file, b"ab", &long)?;
    let all = pair(rt.alloc(), b"ab", &long)?;
    assert!(rt; all.len() == 10_002);
    assert_flushed(&rt, &mut env, &mut file, &all)
}

#[test]
fn a_written_file_is_kept(rt: HostRuntime) -> Result<()> {
    let mut env = MemEnv::new(rt.alloc());
    for text in [b"a longer text".as_slice(), b"", b"text"] {
        let mut file = write_file(rt.alloc(), &mut env, LOG, text)?;
        assert!(rt; keeps(&env, rt.alloc(), LOG, text)?);
        put_pair_in_file(&mut env, &mut file, b", and", b" more")?;
        let longer = pair(rt.alloc(), text, b", and more")?;
        assert!(rt; has_bytes(&mut env, rt.alloc(), LOG, &longer)?);
    }
    Ok(())
}

const MANIFESTS: [&[u8]; 2] = [b"MANIFEST-000001\n", b"MANIFEST-000005\n"];

/// Whether a file that is replaced by each text in turn then keeps it.
fn is_replaced(env: &mut MemEnv, alloc: Global) -> Result<bool> {
    for text in &MANIFESTS {
        replace_kept(alloc, env, "db/000001.dbtmp", "db/CURRENT", text)?;
        if !keeps(env, alloc, "db/CURRENT", text)? {
            return Ok(false);
        }
    }
    Ok(true)
}

#[test]
fn a_file_is_replaced(rt: HostRuntime) -> Result<()> {
    let mut env = MemEnv::new(rt.alloc());
    assert!(rt; is_replaced(&mut env, rt.alloc())?);
    assert!(rt; !env.exists("db/000001.dbtmp")?);
    Ok(())
}

#[test]
fn files_are_replaced(rt: HostRuntime) -> Result<()> {
    let mut env = MemEnv::new(rt.alloc());
    replace_each(rt.alloc(), &mut env, "tmp", &["a", "b"], b"x")?;
    assert!(rt; has_bytes(&mut env, rt.alloc(), "b", b"x")?);
    Ok(())
}

/// Whether a file that must be there is missing, and the text of the error says which.
fn is_missing(answer: Result<Vec<u8>>, name: &str) -> bool {
    match answer {
        Err(
            Status {
                code,
                err: Some(text),
            },
        ) => code == StatusCode::Corruption && text.as_str().ends_with(name),
        _ => false,
    }
}

#[test]
fn a_missing_file_is_damage(rt: HostRuntime) -> Result<()> {
    let mut env = MemEnv::new(rt.alloc());
    let answer = read_file(rt.alloc(), &mut env, "db/000007.ldb");
    assert!(rt; is_missing(answer, "Corruption: missing file: db/000007.ldb"));
    found(rt.alloc(), "a", env.lock("a"))?;
    let refused = found(rt.alloc(), "a", env.lock("a"));
    assert!(rt; failed_with(refused, StatusCode::LockError)?);
    Ok(())
}

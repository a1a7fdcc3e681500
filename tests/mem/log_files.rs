//! Logs in files: the bytes that they get, what a crash keeps of them, and calls that fail.

use leveldb_base::error::{Result, Status, StatusCode};
use leveldb_disks::mem_env::{MemEnv, Pick, RecordEnv};
use leveldb_env::env::Env;
use leveldb_env::env::whole_files::read_file;
use leveldb_mem::log::{LogFile, LogWriter};
use std::alloc::{AllocError, Global};
use std::process::Abort;
use support::failed_with;

const PATH: &str = "db/000003.log";

const RECORDS: [&[u8]; 3] = [b"abcdefghi", b"1", b"0101010101010101010101"];

fn make<E: Env>(alloc: Global, env: &mut E) -> Result<LogFile<E>> {
    LogFile::make(alloc, env, String::from_str(alloc, PATH)?)
}

/// The bytes of a log of these records.
fn log_of(alloc: Global, records: &[&[u8]]) -> Result<Vec<u8>> {
    let mut writer = LogWriter::new(alloc, Vec::new(alloc));
    for record in records {
        writer.add_record(record)?;
    }
    Ok(writer.sink)
}

/// Whether the log's file has these bytes.
fn has<E: Env>(alloc: Global, env: &mut E, bytes: &[u8]) -> Result<bool> {
    Ok(read_file(alloc, env, PATH)?.as_slice() == bytes)
}

/// Whether it has these bytes after a crash that keeps nothing but what was synced.
fn keeps(alloc: Global, env: &MemEnv, bytes: &[u8]) -> Result<bool> {
    let pick = Pick {
        tails: Vec::new(alloc),
        after: false,
    };
    has(alloc, &mut env.crashed(alloc, &pick)?, bytes)
}

#[test]
fn the_bytes_are_a_writers(rt: HostRuntime) -> Result<()> {
    let mut env = MemEnv::new(rt.alloc());
    let mut log = make(rt.alloc(), &mut env)?;
    for (at, record) in RECORDS.iter().enumerate() {
        log.append(&mut env, record)?;
        let bytes = log_of(rt.alloc(), RECORDS.get(..=at).unwrap_or_default())?;
        assert!(rt; has(rt.alloc(), &mut env, &bytes)?, "after record {at}");
    }
    Ok(())
}

/// A log of one record that is opened again goes on where it ended, whatever is left of its block.
fn goes_on(alloc: Global, first: usize) -> Result<bool> {
    let mut env = MemEnv::new(alloc);
    let record = vec![in alloc; 7u8; first]?;
    make(alloc, &mut env)?.append(&mut env, &record)?;
    let size = env.size_of(PATH)?;
    let mut log = LogFile::open(alloc, &mut env, String::from_str(alloc, PATH)?, size)?;
    log.append(&mut env, b"next")?;
    has(alloc, &mut env, &log_of(alloc, &[&record, b"next"])?)
}

#[test]
fn an_opened_log_goes_on(rt: HostRuntime) -> Result<()> {
    for first in [1, 32753, 32754, 32755, 32760, 32761, 32762, 70_000] {
        assert!(rt; goes_on(rt.alloc(), first)?, "a record of {first} bytes");
    }
    Ok(())
}

#[test]
fn a_missing_log_is_made(rt: HostRuntime) -> Result<()> {
    let mut env = MemEnv::new(rt.alloc());
    let path = String::from_str(rt.alloc(), PATH)?;
    let log = LogFile::open(rt.alloc(), &mut env, path, 0)?;
    assert!(rt; !log.is_broken());
    assert!(rt; has(rt.alloc(), &mut env, b"")?);
    Ok(())
}

#[test]
fn a_log_that_is_made_is_empty(rt: HostRuntime) -> Result<()> {
    let mut env = MemEnv::new(rt.alloc());
    make(rt.alloc(), &mut env)?.append(&mut env, b"x")?;
    let _log = make(rt.alloc(), &mut env)?;
    assert!(rt; has(rt.alloc(), &mut env, b"")?);
    Ok(())
}

#[test]
fn a_crash_keeps_what_was_synced(rt: HostRuntime) -> Result<()> {
    let mut env = MemEnv::new(rt.alloc());
    let mut log = make(rt.alloc(), &mut env)?;
    log.append(&mut env, b"a")?;
    assert!(rt; keeps(rt.alloc(), &env, b"")?);
    log.sync(&mut env)?;
    log.append(&mut env, b"b")?;
    assert!(rt; keeps(rt.alloc(), &env, &log_of(rt.alloc(), &[b"a"])?)?);
    log.sync(&mut env)?;
    assert!(rt; keeps(rt.alloc(), &env, &log_of(rt.alloc(), &[b"a", b"b"])?)?);
    Ok(())
}

/// Asserts that a log is broken: its calls say so, and reach no device.
fn assert_broken(
    rt: &(impl Abort + AllocGlobal),
    env: &mut RecordEnv,
    log: &mut LogFile<RecordEnv>,
) -> Result<()> {
    assert!(rt; log.is_broken());
    let moment = env.moment();
    assert!(rt; failed_with(log.append(env, b"b"), StatusCode::IOError)?);
    assert!(rt; failed_with(log.sync(env), StatusCode::IOError)?);
    assert!(rt; env.moment() == moment);
    Ok(())
}

#[test]
fn a_failed_append_breaks_a_log(rt: HostRuntime) -> Result<()> {
    for done in [false, true] {
        let mut env = RecordEnv::new(rt.alloc());
        let mut log = make(rt.alloc(), &mut env)?;
        env.fail(1, done);
        assert!(rt; failed_with(log.append(&mut env, b"a"), StatusCode::IOError)?);
        assert_broken(&rt, &mut env, &mut log)?;
    }
    Ok(())
}

#[test]
fn a_failed_sync_breaks_a_log(rt: HostRuntime) -> Result<()> {
    let mut env = RecordEnv::new(rt.alloc());
    let mut log = make(rt.alloc(), &mut env)?;
    log.append(&mut env, b"a")?;
    env.fail(1, true);
    assert!(rt; failed_with(log.sync(&mut env), StatusCode::IOError)?);
    assert_broken(&rt, &mut env, &mut log)
}

/// Whether a call failed since the log's file is missing, and its text names the file. Err: it or its text found no memory.
fn is_missing(answer: Result<()>) -> Result<bool> {
    let Err(status) = answer else {
        return Ok(false);
    };
    if status.code == StatusCode::OutOfMemory {
        return Err(status);
    }
    let Some(text) = status.err else {
        return Err(Status::from(AllocError));
    };
    let named = text.as_str().ends_with("missing file: db/000003.log");
    Ok(status.code == StatusCode::Corruption && named)
}

#[test]
fn a_missing_file_breaks_a_log(rt: HostRuntime) -> Result<()> {
    let mut env = RecordEnv::new(rt.alloc());
    let mut log = make(rt.alloc(), &mut env)?;
    env.delete(PATH)?;
    assert!(rt; is_missing(log.append(&mut env, b"a"))?);
    assert_broken(&rt, &mut env, &mut log)?;
    let mut log = make(rt.alloc(), &mut env)?;
    env.delete(PATH)?;
    assert!(rt; is_missing(log.sync(&mut env))?);
    assert_broken(&rt, &mut env, &mut log)
}

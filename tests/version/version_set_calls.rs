//! The numbers that a version set gives, and the file `CURRENT`.
use super::stored::Stored;
use leveldb_base::error::{Result, StatusCode};
use leveldb_base::types::FileNum;
use leveldb_disks::mem_env::{MemEnv, RecordEnv};
use leveldb_env::env::Env;
use leveldb_env::env::whole_files::read_file;
use leveldb_version_set::version_set::{read_current_file, set_current_file};
use std::alloc::Global;
use std::process::Abort;
use support::failed_with;

fn new_set(alloc: Global) -> Result<Stored<MemEnv>> {
    Stored::new(alloc, MemEnv::new(alloc))
}

/// A number is given again only if it was the last one given.
#[test]
fn numbers_are_given_once(rt: HostRuntime) -> Result<()> {
    let mut stored = new_set(rt.alloc())?;
    let set = &mut stored.set;
    assert!(rt; set.new_file_number()? == 2);
    set.reuse_file_number(2);
    assert!(rt; set.new_file_number()? == 2 && set.new_file_number()? == 3);
    set.reuse_file_number(2);
    assert!(rt; set.next_file_num() == 4);
    Ok(())
}

/// A number that was never given isn't taken back, nor is one that is marked as used.
#[test]
fn used_numbers_stay_used(rt: HostRuntime) -> Result<()> {
    let mut stored = new_set(rt.alloc())?;
    let set = &mut stored.set;
    set.reuse_file_number(1);
    assert!(rt; set.next_file_num() == 2);
    set.mark_file_number_used(9)?;
    set.mark_file_number_used(3)?;
    set.reuse_file_number(9);
    assert!(rt; set.next_file_num() == 10);
    Ok(())
}

#[test]
fn numbers_end(rt: HostRuntime) -> Result<()> {
    let mut stored = new_set(rt.alloc())?;
    let set = &mut stored.set;
    let last = set.mark_file_number_used(FileNum::MAX);
    assert!(rt; failed_with(last, StatusCode::NotSupported)? && set.next_file_num() == 2);
    set.mark_file_number_used(FileNum::MAX - 1)?;
    let next = set.new_file_number();
    assert!(rt; failed_with(next, StatusCode::NotSupported)?);
    Ok(())
}

#[test]
fn no_files_yet(rt: HostRuntime) -> Result<()> {
    let stored = new_set(rt.alloc())?;
    assert!(rt; stored.set.live_files()?.is_empty());
    assert!(rt; stored.set.current_summary()?.is_empty());
    Ok(())
}

#[test]
fn current_is_set_and_read(rt: HostRuntime) -> Result<()> {
    let mut env = MemEnv::new(rt.alloc());
    set_current_file(rt.alloc(), &mut env, "db", 7)?;
    let (name, number) = read_current_file(rt.alloc(), &mut env, "db")?;
    assert!(rt; name.as_str() == "MANIFEST-000007" && number == 7);
    let text = read_file(rt.alloc(), &mut env, "db/CURRENT")?;
    assert!(rt; text.as_slice() == b"MANIFEST-000007\n".as_slice());
    assert!(rt; !env.exists("db/000007.dbtmp")?);
    Ok(())
}

#[test]
fn missing_current_is_damage(rt: HostRuntime) -> Result<()> {
    let mut env = MemEnv::new(rt.alloc());
    let read = read_current_file(rt.alloc(), &mut env, "db");
    assert!(rt; failed_with(read, StatusCode::Corruption)?);
    Ok(())
}

/// The number that `CURRENT` has after it was set once, and then once more where one of the four
/// calls fails, done or not.
fn number_after(alloc: Global, nth: u64, done: bool) -> Result<FileNum> {
    let mut env = RecordEnv::new(alloc);
    set_current_file(alloc, &mut env, "db", 1)?;
    env.fail(nth, done);
    if !failed_with(
        set_current_file(alloc, &mut env, "db", 4),
        StatusCode::IOError,
    )? {
        return Ok(0);
    }
    Ok(read_current_file(alloc, &mut env, "db")?.1)
}

/// Only the rename, the last call, makes `CURRENT` name the manifest.
#[test]
fn failed_calls_leave_the_old_name(rt: HostRuntime) -> Result<()> {
    for nth in 1..=4 {
        let undone = number_after(rt.alloc(), nth, false)?;
        let done = number_after(rt.alloc(), nth, true)?;
        assert!(rt; undone == 1 && done == if nth == 4 { 4 } else { 1 });
    }
    Ok(())
}

//! New stores, and edits that are logged.
use super::stored::Stored;
use bytes::Bytes;
use leveldb_base::cmp::DefaultCmp;
use leveldb_base::error::{Result, StatusCode};
use leveldb_base::types::{FileMetaData, FileNum};
use leveldb_disks::mem_env::{MemEnv, RecordEnv};
use leveldb_env::env::Env;
use leveldb_env::env::whole_files::read_file;
use leveldb_env::options::Options;
use leveldb_version::version_edit::VersionEdit;
use leveldb_version_set::version_set::{make_store, read_current_file};
use std::alloc::Global;
use std::process::Abort;
use support::failed_with;

/// The first edit has 34 bytes, and the header of its record 7.
#[test]
fn new_store_has_its_manifest(rt: HostRuntime) -> Result<()> {
    let mut env = MemEnv::new(rt.alloc());
    make_store(rt.alloc(), &mut env, "db", &DefaultCmp)?;
    let manifest = read_file(rt.alloc(), &mut env, "db/MANIFEST-000001")?;
    assert!(rt; manifest.len() == 41);
    let edit = VersionEdit::decode_from(rt.alloc(), &manifest[7..])?;
    assert!(rt; edit.log_number == Some(0) && edit.prev_log_number.is_none());
    assert!(rt; edit.next_file_number == Some(2) && edit.last_seq == Some(0));
    let text = read_file(rt.alloc(), &mut env, "db/CURRENT")?;
    assert!(rt; text.as_slice() == b"MANIFEST-000001\n".as_slice());
    assert!(rt; !env.exists("db/000001.dbtmp")?);
    Ok(())
}

/// Whether `CURRENT` is there after one call of making a store failed, done or not.
fn has_current(alloc: Global, nth: u64, done: bool) -> Result<bool> {
    let mut env = RecordEnv::new(alloc);
    env.fail(nth, done);
    let made = make_store(alloc, &mut env, "db", &DefaultCmp);
    Ok(failed_with(made, StatusCode::IOError)? && env.exists("db/CURRENT")?)
}

/// Only the rename, the last of seven calls, makes `CURRENT` name the manifest.
#[test]
fn failed_calls_make_no_store(rt: HostRuntime) -> Result<()> {
    for nth in 1..=7 {
        assert!(rt; !has_current(rt.alloc(), nth, false)?);
        assert!(rt; has_current(rt.alloc(), nth, true)? == (nth == 7));
    }
    Ok(())
}

/// A version set of no files, whose manifest isn't made.
fn new_set(alloc: Global) -> Result<Stored<RecordEnv>> {
    Stored::new(alloc, RecordEnv::new(alloc))
}

/// An edit that adds the file 5.
fn file_added(alloc: Global) -> Result<VersionEdit> {
    let mut edit = VersionEdit::new(alloc);
    let file = FileMetaData {
        allowed_seeks: 0,
        num: 5,
        size: 177,
        smallest: Bytes::copy_from_slice(alloc, b"a\x01\x00\x00\x00\x00\x00\x00\x00")?,
        largest: Bytes::copy_from_slice(alloc, b"b\x01\x00\x00\x00\x00\x00\x00\x00")?,
    };
    edit.add_file(0, file)?;
    Ok(edit)
}

/// An edit that deletes the file 5 of this level.
fn file_deleted(alloc: Global, level: usize) -> Result<VersionEdit> {
    let mut edit = VersionEdit::new(alloc);
    edit.delete_file(level, 5)?;
    Ok(edit)
}

/// A record of the comparator's name, 28 bytes, and two of an edit's four numbers, 8 bytes each.
#[test]
fn edits_are_appended(rt: HostRuntime) -> Result<()> {
    let mut stored = new_set(rt.alloc())?;
    stored.log_none(rt.alloc())?;
    assert!(rt; stored.env.size_of("db/MANIFEST-000000")? == 50);
    assert!(rt; read_current_file(rt.alloc(), &mut stored.env, "db")?.1 == 0);
    stored.log_none(rt.alloc())?;
    assert!(rt; stored.env.size_of("db/MANIFEST-000000")? == 65);
    Ok(())
}

/// The edit's file is live, and the edit's log number is the set's.
#[test]
fn edits_are_applied(rt: HostRuntime) -> Result<()> {
    let mut stored = new_set(rt.alloc())?;
    let mut edit = file_added(rt.alloc())?;
    edit.set_log_num(4);
    stored.log(edit)?;
    assert!(rt; stored.set.live_files()?.contains(&5) && stored.set.log_num() == 4);
    stored.log(file_deleted(rt.alloc(), 0)?)?;
    assert!(rt; stored.set.live_files()?.is_empty() && stored.set.log_num() == 4);
    Ok(())
}

/// Whether an edit fails when one call of it does, leaves no file, and leaves a set that takes no
/// edit any more.
fn breaks(alloc: Global, first: bool, nth: u64, done: bool) -> Result<bool> {
    let mut stored = new_set(alloc)?;
    if !first {
        stored.log_none(alloc)?;
    }
    stored.env.fail(nth, done);
    let failed = failed_with(stored.log(file_added(alloc)?), StatusCode::IOError)?;
    let next = failed_with(stored.log_none(alloc), StatusCode::IOError)?;
    Ok(failed && next && stored.set.live_files()?.is_empty())
}

/// Seven calls begin a manifest, and two append to it.
#[test]
fn failed_calls_break_the_set(rt: HostRuntime) -> Result<()> {
    for nth in 1..=7 {
        assert!(rt; breaks(rt.alloc(), true, nth, false)? && breaks(rt.alloc(), true, nth, true)?);
    }
    for nth in 1..=2 {
        assert!(rt; breaks(rt.alloc(), false, nth, false)?);
        assert!(rt; breaks(rt.alloc(), false, nth, true)?);
    }
    Ok(())
}

/// The set goes on after an edit of a level that there isn't.
#[test]
fn unknown_levels_are_no_argument(rt: HostRuntime) -> Result<()> {
    let mut stored = new_set(rt.alloc())?;
    let refused = stored.log(file_deleted(rt.alloc(), 7)?);
    assert!(rt; failed_with(refused, StatusCode::InvalidArgument)?);
    assert!(rt; !stored.env.exists("db/MANIFEST-000000")?);
    stored.log_none(rt.alloc())
}

/// The row of a new store with one table: the first log is 3, the second 4, the table 5 in level 2.
/// The edit has 33 bytes, and the manifest 41 and 40 more.
#[test]
fn edits_go_on_in_the_manifest_of_a_new_store(rt: HostRuntime) -> Result<()> {
    let mut stored = Stored::beside_a_store(rt.alloc(), MemEnv::new(rt.alloc()))?;
    assert!(rt; !stored.recover()?);
    assert!(rt; stored.set.new_file_number()? == 3 && stored.set.new_file_number()? == 4);
    assert!(rt; stored.set.new_file_number()? == 5);
    stored.set.set_last_seq(1);
    stored.log(table_of_a_added(rt.alloc())?)?;
    assert!(rt; stored.env.size_of("db/MANIFEST-000001")? == 81);
    Ok(())
}

/// An edit that adds the table of a=1 to level 2, where the log is 4.
fn table_of_a_added(alloc: Global) -> Result<VersionEdit> {
    let mut edit = VersionEdit::new(alloc);
    edit.set_log_num(4);
    edit.add_file(2, table_of_a(alloc)?)?;
    Ok(edit)
}

/// The file of the table of a=1 with the number 5.
fn table_of_a(alloc: Global) -> Result<FileMetaData> {
    let key = b"a\x01\x01\x00\x00\x00\x00\x00\x00";
    Ok(FileMetaData {
        allowed_seeks: 0,
        num: 5,
        size: 177,
        smallest: Bytes::copy_from_slice(alloc, key)?,
        largest: Bytes::copy_from_slice(alloc, key)?,
    })
}

fn recover_for_a_new_manifest(stored: &mut Stored<RecordEnv>) -> Result<bool> {
    let mut options = Options::default();
    options.reuse_manifest = false;
    stored.set.recover(&mut stored.env, &options)
}

/// Which manifest `CURRENT` names after the last call of making a new one failed, done or not: the
/// store has a log 3, and its manifest isn't used on.
fn named_after(alloc: Global, done: bool) -> Result<FileNum> {
    let mut stored = Stored::beside_a_store(alloc, RecordEnv::new(alloc))?;
    stored.set.mark_file_number_used(3)?;
    recover_for_a_new_manifest(&mut stored)?;
    stored.env.fail(7, done);
    failed_with(stored.log_none(alloc), StatusCode::IOError)?;
    Ok(read_current_file(alloc, &mut stored.env, "db")?.1)
}

/// The rename to `CURRENT` fails: undone it names the old manifest, done the new one.
#[test]
fn failed_rename_names_either_manifest(rt: HostRuntime) -> Result<()> {
    assert!(rt; named_after(rt.alloc(), false)? == 1);
    assert!(rt; named_after(rt.alloc(), true)? == 4);
    Ok(())
}

/// An edit that is refused out of memory leaves the set's files, and either the manifest too,
/// so that the edit may be logged again, or a set that takes no edit any more.
#[test]
fn refused_edits_leave_the_files_of_the_set(rt: HostRuntime) -> Result<()> {
    let mut stored = Stored::new(rt.alloc(), MemEnv::new(rt.alloc()))?;
    stored.log_none(rt.alloc())?;
    let edit = file_added(rt.alloc())?;
    let logged = stored.log(edit);
    if logged.is_err() {
        assert!(rt; stored.set.live_files()?.is_empty());
        assert!(rt; is_logged_again(rt.alloc(), &mut stored)?);
    }
    logged
}

/// Whether the edit is logged once more, or the set takes no edit any more.
fn is_logged_again(alloc: Global, stored: &mut Stored<MemEnv>) -> Result<bool> {
    match stored.log(file_added(alloc)?) {
        Ok(()) => Ok(stored.env.size_of("db/MANIFEST-000000")? == 50 + 7 + 33),
        Err(status) => Ok(status.code == StatusCode::IOError),
    }
}

/// A recovery that is refused out of memory leaves the set, and may be done again.
#[test]
fn refused_recoveries_leave_the_set(rt: HostRuntime) -> Result<()> {
    let mut stored = Stored::beside_a_store(rt.alloc(), MemEnv::new(rt.alloc()))?;
    if let Err(status) = stored.recover() {
        assert!(rt; stored.set.next_file_num() == 2 && stored.set.manifest_num() == 0);
        assert!(rt; !stored.recover()?);
        return Err(status);
    }
    assert!(rt; stored.set.next_file_num() == 3 && stored.set.manifest_num() == 1);
    Ok(())
}

//! What a version set recovers from manifests that are written by hand, and what it refuses.
use super::store_files::{NEW_MANIFEST, TABLE_EDIT};
use super::stored::Stored;
use leveldb_base::cmp::DefaultCmp;
use leveldb_base::error::{Result, StatusCode};
use leveldb_base::types::{FileNum, SequenceNumber};
use leveldb_disks::mem_env::{MemEnv, RecordEnv};
use leveldb_env::env::Env;
use leveldb_env::options::Options;
use leveldb_mem::log::LogWriter;
use leveldb_version_set::version_set::VersionSet;
use std::alloc::Global;
use std::process::Abort;
use support::failed_with;

/// An edit that a store can begin with: log 0, next file 2, last sequence number 0.
pub const BEGINNING: &[u8] = b"\x01\x1aleveldb.BytewiseComparator\x02\x00\x03\x02\x04\x00";

/// Edits after `BEGINNING`, and how a set that meets them fails.
const REFUSED: [(&[u8], StatusCode); 8] = [
    // another comparator
    (b"\x01\x01x", StatusCode::InvalidArgument),
    // no edit
    (b"\x07\x07\x05\x01", StatusCode::Corruption),
    // the last sequence number 2^56
    (
        b"\x04\x80\x80\x80\x80\x80\x80\x80\x80\x01",
        StatusCode::Corruption,
    ),
    // the next file's number 2^64 - 1
    (
        b"\x03\xff\xff\xff\xff\xff\xff\xff\xff\xff\x01",
        StatusCode::NotSupported,
    ),
    // keys of one byte
    (b"\x07\x02\x05\x00\x01a\x01a", StatusCode::Corruption),
    // from b to a
    (
        b"\x07\x02\x05\x00\
        \x09b\x01\x01\x00\x00\x00\x00\x00\x00\x09a\x01\x01\x00\x00\x00\x00\x00\x00",
        StatusCode::Corruption,
    ),
    // from a to c and from b to d
    (
        b"\x07\x02\x05\x00\
        \x09a\x01\x01\x00\x00\x00\x00\x00\x00\x09c\x01\x01\x00\x00\x00\x00\x00\x00\
        \x07\x02\x06\x00\
        \x09b\x01\x01\x00\x00\x00\x00\x00\x00\x09d\x01\x01\x00\x00\x00\x00\x00\x00",
        StatusCode::Corruption,
    ),
    // from a to b of number 2, and from b of number 1 to c
    (
        b"\x07\x02\x05\x00\
        \x09a\x01\x01\x00\x00\x00\x00\x00\x00\x09b\x01\x02\x00\x00\x00\x00\x00\x00\
        \x07\x02\x06\x00\
        \x09b\x01\x01\x00\x00\x00\x00\x00\x00\x09c\x01\x01\x00\x00\x00\x00\x00\x00",
        StatusCode::NotSupported,
    ),
];

/// Edits that leave a value out: the comparator, the log number, the next file's, the last sequence
/// number.
const LACKING: [&[u8]; 4] = [
    b"\x02\x00\x03\x02\x04\x00",
    b"\x01\x1aleveldb.BytewiseComparator\x03\x02\x04\x00",
    b"\x01\x1aleveldb.BytewiseComparator\x02\x00\x04\x00",
    b"\x01\x1aleveldb.BytewiseComparator\x02\x00\x03\x02",
];

/// What a set has: the number of the next file, the manifest's, the log's, and the last sequence
/// number.
pub type Numbers = (FileNum, FileNum, FileNum, SequenceNumber);

pub fn numbers_of<E: Env>(set: &VersionSet<E, DefaultCmp>) -> Numbers {
    (
        set.next_file_num(),
        set.manifest_num(),
        set.log_num(),
        set.last_seq(),
    )
}

/// Makes a file of these bytes.
fn put<E: Env>(env: &mut E, name: &str, bytes: &[u8]) -> Result<()> {
    let mut file = env.open_writable_file(name)?;
    env.append(&mut file, bytes)
}

/// Makes a store of manifest 1.
pub fn put_store<E: Env>(env: &mut E, manifest: &[u8]) -> Result<()> {
    put(env, "db/MANIFEST-000001", manifest)?;
    put(env, "db/CURRENT", b"MANIFEST-000001\n")
}

/// The manifest of these edits.
fn manifest_of(alloc: Global, edits: &[&[u8]]) -> Result<Vec<u8>> {
    let mut writer = LogWriter::new(alloc, Vec::new(alloc));
    for edit in edits {
        writer.add_record(edit)?;
    }
    Ok(writer.sink)
}

/// A set of no files, beside a store of this manifest 1.
fn beside(alloc: Global, manifest: &[u8]) -> Result<Stored<MemEnv>> {
    let mut stored = Stored::new(alloc, MemEnv::new(alloc))?;
    put_store(&mut stored.env, manifest)?;
    Ok(stored)
}

/// What a set of this manifest returns and has.
fn recovered(alloc: Global, manifest: &[u8], reuse: bool, limit: usize) -> Result<(bool, Numbers)> {
    let mut stored = beside(alloc, manifest)?;
    let mut options = Options::default();
    options.reuse_manifest = reuse;
    options.max_file_size = limit;
    let anew = stored.set.recover(&mut stored.env, &options)?;
    Ok((anew, numbers_of(&stored.set)))
}

/// Whether a set of these edits fails so, and stays as it was.
fn refuses(alloc: Global, edits: &[&[u8]], code: StatusCode) -> Result<bool> {
    let mut stored = beside(alloc, manifest_of(alloc, edits)?.as_slice())?;
    let failed = failed_with(stored.recover(), code)?;
    Ok(failed && numbers_of(&stored.set) == (2, 0, 0, 0))
}

/// A new store's manifest of 41 bytes goes on to be used where it is short and its end is clean.
#[test]
fn new_manifest(rt: HostRuntime) -> Result<()> {
    assert!(rt; NEW_MANIFEST.len() == 41);
    let on = recovered(rt.alloc(), NEW_MANIFEST, true, 42)?;
    assert!(rt; on == (false, (3, 1, 0, 0)));
    let long = recovered(rt.alloc(), NEW_MANIFEST, true, 41)?;
    assert!(rt; long == (true, (4, 3, 0, 0)));
    let unwanted = recovered(rt.alloc(), NEW_MANIFEST, false, 1 << 20)?;
    assert!(rt; unwanted == (true, (4, 3, 0, 0)));
    Ok(())
}

#[test]
fn torn_manifest(rt: HostRuntime) -> Result<()> {
    let mut manifest = Vec::from_slice(rt.alloc(), NEW_MANIFEST)?;
    manifest.push(0)?;
    let torn = recovered(rt.alloc(), manifest.as_slice(), true, 1 << 20)?;
    assert!(rt; torn == (true, (4, 3, 0, 0)));
    Ok(())
}

fn beside_a_table(alloc: Global) -> Result<Stored<MemEnv>> {
    let mut manifest = Vec::from_slice(alloc, NEW_MANIFEST)?;
    manifest.extend_from_slice(TABLE_EDIT)?;
    beside(alloc, manifest.as_slice())
}

/// The manifest of a store with one table has 81 bytes.
#[test]
fn manifest_of_a_table(rt: HostRuntime) -> Result<()> {
    let mut stored = beside_a_table(rt.alloc())?;
    assert!(rt; stored.env.size_of("db/MANIFEST-000001")? == 81);
    assert!(rt; !stored.recover()? && numbers_of(&stored.set) == (7, 1, 4, 1));
    let text = stored.set.current_summary()?;
    assert!(rt; text.as_str() == "level 2: 1 files, 177 bytes ([(5, 177)]); ");
    Ok(())
}

#[test]
fn refused_edits(rt: HostRuntime) -> Result<()> {
    for (edit, code) in &REFUSED {
        assert!(rt; refuses(rt.alloc(), &[BEGINNING, *edit], *code)?);
    }
    Ok(())
}

#[test]
fn lacking_edits(rt: HostRuntime) -> Result<()> {
    for edit in &LACKING {
        assert!(rt; refuses(rt.alloc(), &[*edit], StatusCode::Corruption)?);
    }
    Ok(())
}

#[test]
fn missing_manifest(rt: HostRuntime) -> Result<()> {
    let mut stored = Stored::new(rt.alloc(), MemEnv::new(rt.alloc()))?;
    put(&mut stored.env, "db/CURRENT", b"MANIFEST-000001\n")?;
    assert!(rt; failed_with(stored.recover(), StatusCode::Corruption)?);
    Ok(())
}

/// How many calls recovering makes, and whether the set stays as it was where one of them fails; 0
/// is none.
fn with_failure(alloc: Global, nth: u64, done: bool) -> Result<(u64, bool)> {
    let mut stored = Stored::new(alloc, RecordEnv::new(alloc))?;
    put_store(&mut stored.env, NEW_MANIFEST)?;
    let before = stored.env.moment();
    stored.env.fail(nth, done);
    let failed = failed_with(stored.recover(), StatusCode::IOError)?;
    let calls = stored.env.moment().saturating_sub(before) / 2;
    Ok((calls, failed && numbers_of(&stored.set) == (2, 0, 0, 0)))
}

#[test]
fn failed_calls(rt: HostRuntime) -> Result<()> {
    let (calls, failed) = with_failure(rt.alloc(), 0, false)?;
    assert!(rt; calls > 4 && !failed);
    for nth in 1..=calls {
        assert!(rt; with_failure(rt.alloc(), nth, false)?.1);
        assert!(rt; with_failure(rt.alloc(), nth, true)?.1);
    }
    Ok(())
}

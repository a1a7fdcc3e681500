//! What each call does to real files.
use super::calls::{Call, shown};
use leveldb_base::error::{Result, StatusCode};
use leveldb_disks::disk_env::{PosixDiskEnv, reserve_descriptors};
use leveldb_env::env::Env;
use os_system::OsSystem;
use std::alloc::Global;

const FOLDER: &str = "disk_tests_files/in";

const A: &str = "disk_tests_files/in/a";

const B: &str = "disk_tests_files/in/b";

const C: &str = "disk_tests_files/c";

/// A call, its bytes and its code, one after another.
const CALLS: [(Call<'static>, &[u8], StatusCode); 32] = [
    (Call::Children(FOLDER), b"", StatusCode::OK),
    (Call::Exists(A), &[0; 8], StatusCode::OK),
    (Call::Append(A, b"one"), b"", StatusCode::OK),
    (Call::Append(A, b"two"), b"", StatusCode::OK),
    (Call::AppendAndSync(A, b""), b"", StatusCode::OK),
    (Call::Read(A), b"onetwo", StatusCode::OK),
    (Call::ReadAt(A, 0), b"onetwo", StatusCode::OK),
    (Call::ReadAt(A, 4), b"wo", StatusCode::OK),
    (Call::ReadAt(A, 6), b"", StatusCode::OK),
    (Call::ReadAt(A, 1 << 40), b"", StatusCode::OK),
    // offsets up to which the system reads, and from which on it doesn't
    (Call::ReadAt(A, (1 << 63) - 65), b"", StatusCode::OK),
    (Call::ReadAt(A, (1 << 63) - 64), b"", StatusCode::OK),
    (Call::ReadAt(A, (1 << 63) - 8), b"", StatusCode::OK),
    (Call::ReadAt(A, 1 << 63), b"", StatusCode::OK),
    (Call::ReadAt(A, usize::MAX), b"", StatusCode::OK),
    (Call::SizeOf(A), &[6, 0, 0, 0, 0, 0, 0, 0], StatusCode::OK),
    (Call::Exists(A), &[1, 0, 0, 0, 0, 0, 0, 0], StatusCode::OK),
    (Call::Replace(A, b"x"), b"", StatusCode::OK),
    (Call::Read(A), b"x", StatusCode::OK),
    (Call::Replace(B, b""), b"", StatusCode::OK),
    (Call::Children(FOLDER), b"a b ", StatusCode::OK),
    (Call::Rename(A, B), b"", StatusCode::OK),
    (Call::Children(FOLDER), b"b ", StatusCode::OK),
    (Call::Read(B), b"x", StatusCode::OK),
    (Call::Rename(B, C), b"", StatusCode::OK),
    (Call::Children(FOLDER), b"", StatusCode::OK),
    (Call::Children("disk_tests_files"), b"c ", StatusCode::OK),
    (Call::Mkdir(FOLDER), b"", StatusCode::OK),
    (Call::Append(A, b"y"), b"", StatusCode::OK),
    (Call::Clear(FOLDER), b"", StatusCode::OK),
    (Call::Exists(A), &[0; 8], StatusCode::OK),
    (Call::Delete(C), b"", StatusCode::OK),
];

/// The index of the first call that returns something else, if one does.
fn first_other<E: Env>(env: &mut E, alloc: Global) -> Result<Option<usize>> {
    env.rmdir("disk_tests_files")?;
    env.mkdir(FOLDER)?;
    for (at, (call, bytes, code)) in CALLS.iter().enumerate() {
        let (found, found_code) = shown(env, alloc, *call)?;
        if found.as_slice() != *bytes || found_code != *code {
            return Ok(Some(at));
        }
    }
    env.rmdir("disk_tests_files")?;
    Ok(None)
}

#[test]
fn calls_return_what_files_hold(rt: HostRuntime) -> Result<()> {
    reserve_descriptors(&rt)?;
    let alloc = rt.alloc();
    let other = first_other(&mut PosixDiskEnv::new(&rt), alloc)?;
    assert!(rt; other == None, "call {other:?}");
    let other = first_other(&mut PosixDiskEnv::new(OsSystem::new(alloc)), alloc)?;
    assert!(rt; other == None, "call {other:?} of os_system");
    Ok(())
}

/// Bytes that two handles append alternately, and that one of them reads back.
fn alternate<E: Env>(env: &mut E, alloc: Global) -> Result<Vec<u8>> {
    env.mkdir("disk_tests_handles")?;
    let mut one = env.open_writable_file("disk_tests_handles/a")?;
    let mut other = env.open_appendable_file("disk_tests_handles/a")?;
    env.append(&mut one, b"abc")?;
    env.append(&mut other, b"de")?;
    env.append(&mut one, b"f")?;
    let mut bytes = [0; 8];
    let count = env.read_at(&one, 0, &mut bytes)?;
    let read = bytes.as_slice().get(..count).unwrap_or_default();
    Ok(Vec::from_slice(alloc, read)?)
}

#[test]
fn two_handles_append_to_one_file(rt: HostRuntime) -> Result<()> {
    let mut env = PosixDiskEnv::new(&rt);
    let mut other = PosixDiskEnv::new(OsSystem::new(rt.alloc()));
    let read = alternate(&mut env, rt.alloc())?;
    assert!(rt; read.as_slice() == b"abcdef".as_slice());
    let read = alternate(&mut other, rt.alloc())?;
    assert!(rt; read.as_slice() == b"abcdef".as_slice());
    let (first, second) = (env.micros()?, other.micros()?);
    assert!(rt; first > 1_700_000_000_000_000 && second >= first && second < first + 60_000_000);
    env.rmdir("disk_tests_handles")
}

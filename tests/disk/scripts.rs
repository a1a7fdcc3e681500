//! The same calls over memory and over real files.
use super::calls::{Call, shown};
use leveldb_base::error::Result;
use leveldb_disks::disk_env::PosixDiskEnv;
use leveldb_env::env::Env;
use leveldb_env::mem_env::MemEnv;
use os_system::OsSystem;
use std::alloc::Global;

const FOLDER: &str = "disk_tests_scripts";

const NAMES: [&str; 4] = [
    "disk_tests_scripts/a",
    "disk_tests_scripts/b",
    "disk_tests_scripts/c",
    "disk_tests_scripts/.d e",
];

const LOCKS: [&str; 2] = ["disk_tests_scripts/l", "disk_tests_scripts/m"];

/// Whether a call gives the same over both.
fn agree<E: Env, F: Env>(
    one: &mut E,
    other: &mut F,
    alloc: Global,
    call: Call<'_>,
) -> Result<bool> {
    let (bytes, code) = shown(one, alloc, call)?;
    let (others, other_code) = shown(other, alloc, call)?;
    Ok(bytes.as_slice() == others.as_slice() && code == other_code)
}

/// The next number of a simple generator, and of it a choice among 16 calls, 4 names and 4 others.
fn next(state: &mut u64) -> (u64, usize, usize) {
    *state = state
        .wrapping_mul(6_364_136_223_846_793_005)
        .wrapping_add(1_442_695_040_888_963_407);
    let drawn = *state >> 40;
    (
        drawn % 16,
        (drawn / 16 % 4) as usize,
        (drawn / 64 % 4) as usize,
    )
}

fn call_of(kind: u64, name: usize, other: usize) -> Call<'static> {
    let name = NAMES.get(name).copied().unwrap_or("");
    let lock = LOCKS.get(other % 2).copied().unwrap_or("");
    let bytes = b"The bytes that are appended"
        .get(..other)
        .unwrap_or_default();
    match kind {
        0 => Call::Read(name),
        1 => Call::ReadAt(name, other.saturating_mul(7)),
        2 => Call::Replace(name, bytes),
        3 | 4 => Call::Append(name, bytes),
        5 | 6 => Call::AppendAndSync(name, b"synced"),
        7 => Call::Exists(name),
        8 => Call::Children(FOLDER),
        9 => Call::SizeOf(name),
        10 => Call::Delete(name),
        11 | 12 => Call::Rename(name, NAMES.get(other).copied().unwrap_or("")),
        13 => Call::Lock(lock),
        14 => Call::Unlock(lock),
        _ if other == 0 => Call::Clear(FOLDER),
        _ => Call::Mkdir(FOLDER),
    }
}

/// How many of 500 random calls give the same over both, until one doesn't.
fn count_agreed<E: Env, F: Env>(one: &mut E, other: &mut F, alloc: Global) -> Result<usize> {
    one.rmdir(FOLDER)?;
    one.mkdir(FOLDER)?;
    let mut state = 20_261_124;
    for count in 0..500 {
        let (kind, name, folder) = next(&mut state);
        if !agree(one, other, alloc, call_of(kind, name, folder))? {
            return Ok(count);
        }
    }
    one.rmdir(FOLDER)?;
    Ok(500)
}

#[test]
fn memory_and_files_give_the_same(rt: HostRuntime) -> Result<()> {
    let alloc = rt.alloc();
    let count = count_agreed(&mut PosixDiskEnv::new(&rt), &mut MemEnv::new(alloc), alloc)?;
    assert!(rt; count == 500, "call {count}");
    let mut files = PosixDiskEnv::new(OsSystem::new(alloc));
    let count = count_agreed(&mut files, &mut MemEnv::new(alloc), alloc)?;
    assert!(rt; count == 500, "call {count} of os_system");
    Ok(())
}

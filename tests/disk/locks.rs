//! Locks of real files.
use super::calls::{Call, code_of};
use leveldb_base::error::Result;
use leveldb_base::error::StatusCode::{self, LockError, OK};
use leveldb_disks::disk_env::PosixDiskEnv;
use leveldb_env::env::Env;
use os_system::OsSystem;
use std::alloc::Global;

const LOCK: &str = "disk_tests_locks/l";

/// The same file.
const SAME: &str = "disk_tests_locks/../disk_tests_locks/l";

/// Which of two environments calls, what, and the code.
const CALLS: [(bool, Call<'static>, StatusCode); 11] = [
    (true, Call::Lock(LOCK), OK),
    (true, Call::Lock(LOCK), LockError),
    (true, Call::Lock(SAME), LockError),
    (false, Call::Lock(LOCK), LockError),
    (false, Call::Unlock(LOCK), LockError),
    (true, Call::Unlock(LOCK), OK),
    (true, Call::Unlock(LOCK), LockError),
    (false, Call::Lock(SAME), OK),
    (true, Call::Lock(LOCK), LockError),
    (false, Call::SizeOf(LOCK), OK),
    (false, Call::Unlock(LOCK), LockError),
];

fn first_other<E: Env, F: Env>(one: &mut E, other: &mut F, alloc: Global) -> Result<Option<usize>> {
    for (at, (is_first, call, code)) in CALLS.iter().enumerate() {
        let found = if *is_first {
            code_of(one, alloc, *call)?
        } else {
            code_of(other, alloc, *call)?
        };
        if found != *code {
            return Ok(Some(at));
        }
    }
    Ok(None)
}

/// A lock keeps out each other opening of its file, until it is freed or its environment is
/// dropped.
#[test]
fn locks_keep_others_out(rt: HostRuntime) -> Result<()> {
    let alloc = rt.alloc();
    let mut one = PosixDiskEnv::new(&rt);
    one.mkdir("disk_tests_locks")?;
    let mut other = PosixDiskEnv::new(&rt);
    let found = first_other(&mut one, &mut other, alloc)?;
    assert!(rt; found == None, "call {found:?}");
    drop(other);
    let mut other = PosixDiskEnv::new(OsSystem::new(alloc));
    let found = first_other(&mut one, &mut other, alloc)?;
    assert!(rt; found == None, "call {found:?} beside os_system");
    drop(other);
    one.lock(LOCK)?;
    one.unlock(LOCK)?;
    let mut one = PosixDiskEnv::new(OsSystem::new(alloc));
    let mut other = PosixDiskEnv::new(OsSystem::new(alloc));
    let found = first_other(&mut one, &mut other, alloc)?;
    assert!(rt; found == None, "call {found:?} of os_system");
    drop(other);
    one.lock(LOCK)?;
    one.rmdir("disk_tests_locks")
}

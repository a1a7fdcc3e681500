//! The program over a folder of the system, as over memory: its data stay from run to run.
use super::program::assert_run;
use leveldb_base::error::{Result, StatusCode};
use leveldb_disks::disk_env::PosixDiskEnv;
use leveldb_env::env::Env;
use leveldb_env::mem_env::MemEnv;
use std::alloc::Global;
use std::process::Abort;

/// The run that the gate does, and what it prints.
const COMMANDS: &[u8] = b"write 1 +61=31 -62\nget 61\nget 62\nsnap\nput 61 32\ngetat 0 61\n\
walk now first next prev\nrelease 0\ngetat 0 61\n";

const REPLIES: &[u8] = b"ok\nvalue 31\nnone\nsnapshot 0\nok\nvalue 31\nat 61 32\ninvalid\n\
invalid\nok\nrefused InvalidArgument\n";

const USAGE: (u8, &[u8], &[u8]) = (2, b"", b"usage: ldb [--repair | --read-only] DIR\n");

const BAD_LINE: (u8, &[u8], &[u8]) = (2, b"", b"bad command in line 2\n");

/// Whether no name is in the folder; one that isn't there has none.
fn is_empty<E: Env>(alloc: Global, env: &mut E, folder: &str) -> Result<bool> {
    match env.children(alloc, folder) {
        Ok(names) => Ok(names.is_empty()),
        Err(status) if status.code == StatusCode::NotFound => Ok(true),
        Err(status) => Err(status),
    }
}

/// A fault of the caller's opens nothing, before the store is made and afterwards.
fn misuse<E: Env>(rt: &impl Abort, alloc: Global, env: &mut E, folder: &str) -> Result<()> {
    assert_run(rt, env, alloc, &[], COMMANDS, USAGE)?;
    assert_run(rt, env, alloc, &[folder, folder], COMMANDS, USAGE)?;
    assert_run(rt, env, alloc, &[folder], b"put 61 33\nget 6\n", BAD_LINE)?;
    Ok(())
}

/// The first run of a store, and what a later one finds.
fn run_twice<E: Env>(rt: &impl Abort, alloc: Global, env: &mut E, folder: &str) -> Result<()> {
    misuse(rt, alloc, env, folder)?;
    assert!(rt; is_empty(alloc, env, folder)?);
    assert_run(rt, env, alloc, &[folder], COMMANDS, (0, REPLIES, b""))?;
    misuse(rt, alloc, env, folder)?;
    assert_run(
        rt,
        env,
        alloc,
        &[folder],
        b"get 61\n",
        (0, b"value 32\n", b""),
    )?;
    Ok(())
}

#[test]
fn data_stay_in_memory(rt: HostRuntime) -> Result<()> {
    run_twice(&rt, rt.alloc(), &mut MemEnv::new(rt.alloc()), "db")
}

/// The last run has an environment of its own, as another process has.
#[test]
fn data_stay_in_a_folder(rt: HostRuntime) -> Result<()> {
    let folder = "run_tests_twice/in/db";
    let mut env = PosixDiskEnv::new(&rt);
    env.rmdir("run_tests_twice")?;
    run_twice(&rt, rt.alloc(), &mut env, folder)?;
    let mut other = PosixDiskEnv::new(&rt);
    let found = (0, b"value 32\nnone\n".as_slice(), b"".as_slice());
    assert_run(
        &rt,
        &mut other,
        rt.alloc(),
        &[folder],
        b"get 61\nget 62",
        found,
    )?;
    other.rmdir("run_tests_twice")
}

//! `os_trials CALL NAME`: calls on real files without the runtime's, which are looked at from
//! outside. tools/disk-trials runs it.
#![tactic(auto)]

use leveldb_base::error::Result;
use leveldb_disks::disk_env::PosixDiskEnv;
use leveldb_env::env::Env;
use leveldb_env::options::Options;
use os_system::OsSystem;
use rusty_leveldb::DB;
use std::process::ExitCode;
use std::{env, io};

fn wait_for_line(rt: &(impl Print + Input + Alloc), word: &str) -> Result<()> {
    rt.println(word)?;
    rt.read_line(&mut String::new(rt.alloc()))?;
    Ok(())
}

/// Locks a name until a line of the input ends.
fn lock<E: Env>(rt: &(impl Print + Input + Alloc), env: &mut E, name: &str) -> Result<()> {
    env.lock(name)?;
    wait_for_line(rt, "locked")?;
    env.unlock(name)
}

/// Has a store open until a line of the input ends.
fn open<E: Env>(rt: &(impl Print + Input + AllocGlobal), env: &mut E, folder: &str) -> Result<()> {
    let mut db = DB::open(rt.alloc(), folder, env, Options::default())?;
    db.put(b"key", b"value")?;
    wait_for_line(rt, "open")?;
    db.close()
}

/// Runs the call, and prints how it ended. The status is 0 if it ended well.
fn trial<E: Env>(
    rt: &(impl Print + Input + AllocGlobal),
    env: &mut E,
    words: &[String],
) -> io::Result<u8> {
    let [call, name] = words else {
        rt.println("usage: os_trials lock|open NAME")?;
        return Ok(2);
    };
    let ended = match call.as_str() {
        "lock" => lock(rt, env, name.as_str()),
        _ => open(rt, env, name.as_str()),
    };
    match ended {
        Ok(()) => rt.println("done")?,
        Err(status) => {
            rt.println(format_args!("refused {status}"))?;
            return Ok(1);
        }
    }
    Ok(0)
}

fn main(rt: HostRuntime) -> io::Result<ExitCode> {
    let words: Vec<String> = env::args(&rt)?.skip(1).collect(rt.alloc())?;
    let mut env = PosixDiskEnv::new(OsSystem::new(rt.alloc()));
    Ok(ExitCode::from(trial(&rt, &mut env, &words)?))
}

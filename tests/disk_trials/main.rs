//! `disk_trials CALL NAME`: calls on real files that are looked at from outside. tools/disk-trials
//! runs it.
#![tactic(auto)]

mod commands;
mod stores;

use leveldb_base::error::Result;
use leveldb_disks::disk_env::{PosixDiskEnv, reserve_descriptors};
use leveldb_env::env::Env;
use std::alloc::Global;
use std::process::ExitCode;
use std::{env, io};

/// Locks a name until a line of the input ends.
fn lock<E: Env>(rt: &(impl Print + Input + Alloc), env: &mut E, name: &str) -> Result<()> {
    env.lock(name)?;
    rt.println("locked")?;
    rt.read_line(&mut String::new(rt.alloc()))?;
    env.unlock(name)
}

fn append_line<E: Env>(env: &mut E, file: &mut E::File, alloc: Global, count: u32) -> Result<()> {
    let line = format!(in alloc; "{count:09}\n")?;
    env.append(file, line.as_bytes())?;
    env.sync(file)
}

/// Appends numbered lines of ten bytes, and prints each number once its line is synced.
fn append<E: Env>(rt: &(impl Print + AllocGlobal), env: &mut E, name: &str) -> Result<()> {
    let mut file = env.open_writable_file(name)?;
    for count in 0..1_000_000_000 {
        append_line(env, &mut file, rt.alloc(), count)?;
        rt.println(count)?;
    }
    Ok(())
}

/// Makes a folder and in it each kind of change, and removes it.
fn change<E: Env>(env: &mut E, alloc: Global, folder: &str) -> Result<()> {
    let from = format!(in alloc; "{folder}/from")?;
    let to = format!(in alloc; "{folder}/to")?;
    env.mkdir(folder)?;
    let mut file = env.open_writable_file(from.as_str())?;
    env.append(&mut file, b"a write")?;
    env.append(&mut file, b"a synced write")?;
    env.sync(&mut file)?;
    env.rename(from.as_str(), to.as_str())?;
    env.open_appendable_file(to.as_str())?;
    env.delete(to.as_str())?;
    env.rmdir(folder)
}

/// The call of this name; whether there is one.
fn run<E: Env>(
    rt: &(impl Print + Input + AllocGlobal),
    env: &mut E,
    call: &str,
    name: &str,
) -> Result<bool> {
    match call {
        "lock" => lock(rt, env, name)?,
        "append" => append(rt, env, name)?,
        "change" => change(env, rt.alloc(), name)?,
        "write" => stores::write_on(rt, env, name)?,
        "store" => stores::open_six_times(rt, env, name)?,
        "commands" => commands::run_commands(rt, env, name)?,
        "repair" => commands::repair_store(rt.alloc(), env, name)?,
        _ => return Ok(false),
    }
    Ok(true)
}

/// Runs the call, and prints how it ended. The status is 0 if it ended well.
fn trial<E: Env>(
    rt: &(impl Print + Input + AllocGlobal),
    env: &mut E,
    words: &[String],
) -> io::Result<u8> {
    let [call, name] = words else {
        rt.println("usage: disk_trials lock|append|change|write|store|commands|repair NAME")?;
        return Ok(2);
    };
    match run(rt, env, call.as_str(), name.as_str()) {
        Ok(true) => rt.println("done")?,
        Ok(false) => rt.println("no such call")?,
        Err(status) => {
            let code = status.code;
            rt.println(format_args!("refused {code}"))?;
            return Ok(1);
        }
    }
    Ok(0)
}

fn main(rt: HostRuntime) -> io::Result<ExitCode> {
    if reserve_descriptors(&rt).is_err() {
        return Ok(ExitCode::from(1));
    }
    let words: Vec<String> = env::args(&rt)?.skip(1).collect(rt.alloc())?;
    let mut env = PosixDiskEnv::new(&rt);
    Ok(ExitCode::from(trial(&rt, &mut env, &words)?))
}

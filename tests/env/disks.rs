//! Calls on disks in memory, what the tests see of such disks, and handles that no disk need know.
use leveldb_base::error::Result;
use leveldb_env::env::Env;
use leveldb_env::mem_env::{MemEnv, MemHandle, Pick};
use std::alloc::Global;

/// A call of an environment.
#[derive(Clone, Copy)]
pub enum Call {
    OpenWritable(&'static str),
    OpenAppendable(&'static str),
    OpenSequential(&'static str),
    OpenRandomAccess(&'static str),
    Read(&'static str),
    ReadAt(&'static str),
    Append(&'static str, &'static str),
    Sync(&'static str),
    Exists(&'static str),
    Children(&'static str),
    SizeOf(&'static str),
    Delete(&'static str),
    Mkdir(&'static str),
    Rmdir(&'static str),
    Rename(&'static str, &'static str),
    Lock(&'static str),
    Unlock(&'static str),
    Micros,
}

fn done<T: Drop>(answer: Result<T>) -> Result<()> {
    answer?;
    Ok(())
}

fn read<E: Env<File = MemHandle>>(env: &mut E, alloc: Global, name: &str) -> Result<()> {
    let mut file = handle_of(alloc, name)?;
    env.read(&mut file, &mut [0; 4])?;
    Ok(())
}

fn read_at<E: Env<File = MemHandle>>(env: &mut E, alloc: Global, name: &str) -> Result<()> {
    let file = handle_of(alloc, name)?;
    env.read_at(&file, 1, &mut [0; 4])?;
    Ok(())
}

fn append<E: Env<File = MemHandle>>(
    env: &mut E,
    alloc: Global,
    name: &str,
    text: &str,
) -> Result<()> {
    let mut file = handle_of(alloc, name)?;
    env.append(&mut file, text.as_bytes())
}

fn sync<E: Env<File = MemHandle>>(env: &mut E, alloc: Global, name: &str) -> Result<()> {
    let mut file = handle_of(alloc, name)?;
    env.sync(&mut file)
}

/// Makes a call.
pub fn run<E: Env<File = MemHandle>>(env: &mut E, alloc: Global, call: Call) -> Result<()> {
    match call {
        Call::OpenWritable(name) => done(env.open_writable_file(name)),
        Call::OpenAppendable(name) => done(env.open_appendable_file(name)),
        Call::OpenSequential(name) => done(env.open_sequential_file(name)),
        Call::OpenRandomAccess(name) => done(env.open_random_access_file(name)),
        Call::Read(name) => read(env, alloc, name),
        Call::ReadAt(name) => read_at(env, alloc, name),
        Call::Append(name, text) => append(env, alloc, name, text),
        Call::Sync(name) => sync(env, alloc, name),
        Call::Exists(name) => done(env.exists(name)),
        Call::Children(folder) => done(env.children(alloc, folder)),
        Call::SizeOf(name) => done(env.size_of(name)),
        Call::Delete(name) => env.delete(name),
        Call::Mkdir(folder) => env.mkdir(folder),
        Call::Rmdir(folder) => env.rmdir(folder),
        Call::Rename(from, to) => env.rename(from, to),
        Call::Lock(name) => env.lock(name),
        Call::Unlock(name) => env.unlock(name),
        Call::Micros => done(env.micros()),
    }
}

/// Makes calls until one fails.
pub fn run_all<E: Env<File = MemHandle>>(env: &mut E, alloc: Global, calls: &[Call]) -> Result<()> {
    for call in calls {
        run(env, alloc, *call)?;
    }
    Ok(())
}

/// The names outside folders that the tests' calls have.
const NAMES: [&str; 7] = ["a", "b", "c", "d", "l", "m", "z"];

/// The folders of all other names that they have.
const FOLDERS: [&str; 2] = ["db", "db2"];

/// Appends the names outside folders.
fn push_names<E: Env>(names: &mut Vec<String>, env: &mut E, alloc: Global) -> Result<()> {
    for name in &NAMES {
        if env.exists(name)? {
            names.push(String::from_str(alloc, *name)?)?;
        }
    }
    Ok(())
}

/// Appends the names in a folder.
fn push_children<E: Env>(
    names: &mut Vec<String>,
    env: &mut E,
    alloc: Global,
    folder: &str,
) -> Result<()> {
    for child in &env.children(alloc, folder)? {
        names.push(format!(in alloc; "{folder}/{child}")?)?;
    }
    Ok(())
}

/// The names of a disk in order: those outside folders that the tests' calls have, and all in their
/// folders.
pub fn names_of<E: Env>(env: &mut E, alloc: Global) -> Result<Vec<String>> {
    let mut names = Vec::new(alloc);
    push_names(&mut names, env, alloc)?;
    for folder in &FOLDERS {
        push_children(&mut names, env, alloc, folder)?;
    }
    names.sort()?;
    Ok(names)
}

/// Appends a name and its file: what a crash keeps, and after a bar what it may leave more.
pub fn show_file(text: &mut Vec<u8>, name: &str, kept: &[u8], more: &[u8]) -> Result<()> {
    let bar: &[u8] = if more.is_empty() { b"" } else { b"|" };
    for piece in [name.as_bytes(), b"=", kept, bar, more, b" "] {
        text.extend_from_slice(piece)?;
    }
    Ok(())
}

/// A handle for this name, opened on another disk: whether the name is there on the tested one is
/// left open.
pub fn handle_of(alloc: Global, name: &str) -> Result<MemHandle> {
    let mut other = MemEnv::new(alloc);
    other.open_writable_file(name)
}

fn push_tail(pick: &mut Pick, alloc: Global, name: &str, tail: &str) -> Result<()> {
    let name = String::from_str(alloc, name)?;
    let tail = Vec::from_slice(alloc, tail.as_bytes())?;
    pick.tails.push((name, tail))?;
    Ok(())
}

/// A crash before a change that leaves these tails.
pub fn pick_of(alloc: Global, tails: &[(&str, &str)]) -> Result<Pick> {
    let mut pick = no_tails(alloc, false);
    for (name, tail) in tails {
        push_tail(&mut pick, alloc, name, tail)?;
    }
    Ok(pick)
}

/// A crash that leaves no tail, before or after a change.
pub fn no_tails(alloc: Global, after: bool) -> Pick {
    Pick {
        tails: Vec::new(alloc),
        after,
    }
}

//! Stores in memory by rows: what is done to a store and its files, and what is then asked of them.
use super::stores::{
    DefaultOptions, Row, STORE, cut_file, files_of, has_files, holds, put_all, put_log, reopen,
};
use leveldb_base::error::{Result, StatusCode};
use leveldb_env::env::Env;
use leveldb_env::mem_env::MemEnv;
use leveldb_env::options::Options;
use rusty_leveldb::db_impl::Engine;
use std::alloc::Global;
use std::process::Abort;
use support::{ShortReads, failed_with, file_bytes, put_file};

/// What a store is opened with that differs from the defaults.
#[derive(Clone, Copy)]
pub enum Setting {
    Defaults,
    /// Whether the last log is used on, and whether the manifest is.
    Reuses(bool, bool),
    /// The size of the memtable.
    Buffer(usize),
    /// The size from which a manifest is made anew.
    FileSize(usize),
    /// A store that is there is an error.
    MustBeNew,
    /// A store that isn't there is an error.
    MustExist,
}

pub fn options_of(setting: Setting) -> DefaultOptions {
    let mut options = Options::default();
    match setting {
        Setting::Defaults => {}
        Setting::Reuses(logs, manifest) => {
            options.reuse_logs = logs;
            options.reuse_manifest = manifest;
        }
        Setting::Buffer(size) => options.write_buffer_size = size,
        Setting::FileSize(size) => options.max_file_size = size,
        Setting::MustBeNew => options.error_if_exists = true,
        Setting::MustExist => options.create_if_missing = false,
    }
    options
}

/// What is done to a store and its files, or asked of them.
#[derive(Clone, Copy)]
pub enum Act {
    /// Opens the store, and gives back its lock at once.
    Open(Setting),
    /// Opens the store, puts each pair in a batch of its own, and gives back its lock.
    Put(Setting, &'static [(&'static str, &'static str)]),
    /// Makes a log of these rows, each in a batch of its own: 24 bytes for a key of one byte.
    Log(&'static str, &'static [Row]),
    /// Makes a file of these bytes.
    Make(&'static str, &'static [u8]),
    /// Cuts a file to this many bytes.
    Cut(&'static str, usize),
    /// Renames a file, by its old and its new path.
    Rename(&'static str, &'static str),
    /// Deletes the file at this path.
    Delete(&'static str),
    /// An opening fails with this code, and gives back the lock.
    Fails(Setting, StatusCode),
    /// An opening fails as damage does, and leaves all files as they are.
    IsDamaged,
    /// The names of the store's folder and the sizes of its files are these.
    HasFiles(&'static str),
    /// The slow store reads this.
    Holds(&'static str),
    /// A file of the store ends with these bytes.
    EndsWith(&'static str, &'static [u8]),
}

/// Whether an opening fails with this code, and gives back the lock.
pub fn fails<E: Env>(
    alloc: Global,
    env: &mut E,
    setting: Setting,
    code: StatusCode,
) -> Result<bool> {
    let opened = Engine::open(alloc, STORE, env, options_of(setting));
    let is_right = failed_with(opened, code)?;
    env.lock("db/LOCK")?;
    env.unlock("db/LOCK")?;
    Ok(is_right)
}

/// Whether an opening of this disk fails as damage does, and leaves all files as they are.
pub fn is_damaged<E: Env>(alloc: Global, env: &mut E) -> Result<bool> {
    let before = files_of(alloc, env)?;
    let is_right = fails(alloc, env, Setting::Defaults, StatusCode::Corruption)?;
    Ok(is_right && has_files(alloc, env, before.as_str())?)
}

fn ends_with<E: Env>(alloc: Global, env: &mut E, name: &str, end: &[u8]) -> Result<bool> {
    Ok(file_bytes(alloc, env, name)?.ends_with(end))
}

/// Does what is to be done.
pub fn change<E: Env>(alloc: Global, env: &mut E, act: &Act) -> Result<()> {
    match act {
        Act::Open(setting) => reopen(alloc, env, options_of(*setting)),
        Act::Put(setting, pairs) => put_all(alloc, env, options_of(*setting), pairs),
        Act::Log(name, rows) => put_log(alloc, env, name, rows),
        Act::Make(name, bytes) => put_file(alloc, env, name, bytes),
        Act::Cut(name, size) => cut_file(alloc, env, name, *size),
        Act::Rename(from, to) => env.rename(from, to),
        Act::Delete(path) => env.delete(path),
        _ => Ok(()),
    }
}

/// Does what is to be done, and returns whether what is asked is so.
fn is_right<E: Env>(alloc: Global, env: &mut E, act: &Act) -> Result<bool> {
    match act {
        Act::Fails(setting, code) => fails(alloc, env, *setting, *code),
        Act::IsDamaged => is_damaged(alloc, env),
        Act::HasFiles(wanted) => has_files(alloc, env, wanted),
        Act::Holds(wanted) => holds(alloc, env, wanted),
        Act::EndsWith(name, end) => ends_with(alloc, env, name, end),
        _ => {
            change(alloc, env, act)?;
            Ok(true)
        }
    }
}

/// Does and asks all this, one after another, of a disk that is empty at first.
fn play<E: Env>(
    rt: &impl Abort,
    alloc: Global,
    env: &mut E,
    what: &str,
    acts: &[Act],
) -> Result<()> {
    for (at, act) in acts.iter().enumerate() {
        assert!(rt; is_right(alloc, env, act)?, "{what}, row {at}");
    }
    Ok(())
}

/// Plays each of these, which have names: over memory, and where a read gives 1 to 9 bytes.
pub fn play_each(rt: &impl Abort, alloc: Global, all: &[(&str, &[Act])]) -> Result<()> {
    for (what, acts) in all {
        play(rt, alloc, &mut MemEnv::new(alloc), what, acts)?;
        let mut short = ShortReads::new(MemEnv::new(alloc));
        play(rt, alloc, &mut short, what, acts)?;
    }
    Ok(())
}

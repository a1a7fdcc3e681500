//! Where the stores of rows are: in memory, or in a folder of the system.

use leveldb_base::names::{file_name_parts, lock_file_name};
use leveldb_base::types::FileType;
use leveldb_disks::disk_env::PosixDiskEnv;
use leveldb_env::env::Env;
use rusty_leveldb::{MemEnv, Result};
use std::alloc::Global;
use std::fs::File;
use std::rt::Files;
use std::time::Clock;

/// Gives each run of a row a place for its store.
pub trait Disks {
    type Env: Env + Drop;

    /// An environment in which the store isn't there.
    fn empty(&self) -> Result<Self::Env>;

    /// The store's name.
    fn store(&self) -> &str;
}

/// Memory, anew for each run.
#[derive(Drop)]
pub struct Memory(pub Global);

impl Disks for Memory {
    type Env = MemEnv;

    fn empty(&self) -> Result<MemEnv> {
        Ok(MemEnv::new(self.0))
    }

    fn store(&self) -> &str {
        "bench"
    }
}

/// A folder. Before each run the files in it that have a name as a store gives them are deleted, and
/// no others.
#[derive(Drop)]
pub struct Folder<R> {
    pub rt: R,
    pub path: String,
}

impl<R: Files<File = File> + Clock + AllocGlobal + Copy + Drop> Disks for Folder<R> {
    type Env = PosixDiskEnv<R>;

    fn empty(&self) -> Result<PosixDiskEnv<R>> {
        let mut env = PosixDiskEnv::new(self.rt);
        delete_store(self.rt.alloc(), &mut env, &self.path)?;
        Ok(env)
    }

    fn store(&self) -> &str {
        &self.path
    }
}

// Deletes the files of a folder that have a name as a store gives them, while no one else has the
// store open.
fn delete_store<E: Env>(alloc: Global, env: &mut E, folder: &str) -> Result<()> {
    let lock = lock_file_name(alloc, folder)?;
    env.mkdir(folder)?;
    env.lock(&lock)?;
    for name in &env.children(alloc, folder)? {
        match file_name_parts(name) {
            None | Some((_, FileType::DBLock)) => {}
            Some(_) => {
                let path = format!(in alloc; "{folder}/{name}")?;
                env.delete(&path)?;
            }
        }
    }
    env.unlock(&lock)
}

/// How many bytes the files in a folder have whose names are as a store gives them.
pub fn size_of_store<E: Env>(alloc: Global, env: &mut E, folder: &str) -> Result<u64> {
    let mut bytes = 0u64;
    for name in &env.children(alloc, folder)? {
        if file_name_parts(name).is_some() {
            let path = format!(in alloc; "{folder}/{name}")?;
            bytes = bytes.saturating_add(env.size_of(&path)? as u64);
        }
    }
    Ok(bytes)
}

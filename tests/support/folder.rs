//! The files of a store in the folder `db`, and what is done to them.
use super::damage::change_byte;
use leveldb_base::error::{Result, StatusCode};
use leveldb_env::env::Env;
use leveldb_env::env::whole_files::read_file;
use leveldb_env::mem_env::MemEnv;
use std::alloc::Global;

/// A file of the store: its name and its bytes.
pub type File = (String, Vec<u8>);

/// What is done to a file.
#[derive(Clone, Copy, Debug)]
pub enum Change {
    /// It is cut to so many bytes.
    Cut(usize),
    /// Its byte at this offset is raised by one, from 255 to 0.
    Raised(usize),
    TakenAway,
}

/// Makes a file of the store of these bytes.
pub fn put_file<E: Env>(alloc: Global, env: &mut E, name: &str, bytes: &[u8]) -> Result<()> {
    let path = format!(in alloc; "db/{name}")?;
    let mut file = env.open_writable_file(&path)?;
    env.append(&mut file, bytes)?;
    env.sync(&mut file)
}

/// The bytes of a file of the store.
pub fn file_bytes<E: Env>(alloc: Global, env: &mut E, name: &str) -> Result<Vec<u8>> {
    let path = format!(in alloc; "db/{name}")?;
    read_file(alloc, env, &path)
}

/// Raises the byte of a file of the store at this offset by one.
pub fn damage_file<E: Env>(alloc: Global, env: &mut E, name: &str, at: usize) -> Result<()> {
    let mut bytes = file_bytes(alloc, env, name)?;
    change_byte(&mut bytes, at, 1);
    put_file(alloc, env, name, &bytes)
}

/// Takes `CURRENT` and a store's first manifest away.
pub fn lose_manifest<E: Env>(env: &mut E) -> Result<()> {
    env.delete("db/CURRENT")?;
    env.delete("db/MANIFEST-000001")
}

/// Whether the store's lock is free.
pub fn is_free<E: Env>(env: &mut E) -> Result<bool> {
    match env.lock("db/LOCK") {
        Ok(()) => {
            env.unlock("db/LOCK")?;
            Ok(true)
        }
        Err(status) if status.code == StatusCode::LockError => Ok(false),
        Err(status) => Err(status),
    }
}

/// The files of the store, in the order of their names.
pub fn files_on<E: Env>(alloc: Global, env: &mut E) -> Result<Vec<File>> {
    let mut names = env.children(alloc, "db")?;
    names.sort()?;
    let mut files = Vec::new(alloc);
    for name in names {
        let bytes = file_bytes(alloc, env, &name)?;
        files.push((name, bytes))?;
    }
    Ok(files)
}

/// The bytes of the file of this name.
pub fn bytes_in<'a>(files: &'a [File], name: &str) -> Option<&'a [u8]> {
    let file = files.iter().find(|file| file.0.as_str() == name)?;
    Some(file.1.as_slice())
}

/// The bytes of a file after this change, if it is there then.
fn changed(alloc: Global, bytes: &[u8], change: Change) -> Result<Option<Vec<u8>>> {
    let mut bytes = Vec::from_slice(alloc, bytes)?;
    match change {
        Change::Cut(size) => bytes.truncate(size),
        Change::Raised(at) => change_byte(&mut bytes, at, 1),
        Change::TakenAway => return Ok(None),
    }
    Ok(Some(bytes))
}

/// A disk with these files.
pub fn disk_of(alloc: Global, files: &[File]) -> Result<MemEnv> {
    let mut env = MemEnv::new(alloc);
    for (name, bytes) in files {
        put_file(alloc, &mut env, name, bytes)?;
    }
    Ok(env)
}

/// A disk with these files, of which the one of this name is changed.
pub fn disk_with(alloc: Global, files: &[File], name: &str, change: Change) -> Result<MemEnv> {
    let mut env = disk_of(alloc, files)?;
    let Some(bytes) = bytes_in(files, name) else {
        return Ok(env);
    };
    match changed(alloc, bytes, change)? {
        Some(bytes) => put_file(alloc, &mut env, name, &bytes)?,
        None => {
            let path = format!(in alloc; "db/{name}")?;
            env.delete(&path)?;
        }
    }
    Ok(env)
}

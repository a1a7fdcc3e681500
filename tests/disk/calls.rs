//! Calls of any environment, whose results are shown as text.
use leveldb_base::error::{Result, Status, StatusCode};
use leveldb_env::env::Env;
use std::alloc::Global;

/// A call, or a few that belong together.
#[derive(Clone, Copy)]
pub enum Call<'a> {
    /// Opens the file and reads it whole, a piece of 3 bytes at a time.
    Read(&'a str),

    /// Reads the file from an offset on.
    ReadAt(&'a str, usize),

    /// Creates or empties the file, and appends the bytes.
    Replace(&'a str, &'a [u8]),

    /// Creates or keeps the file, and appends the bytes.
    Append(&'a str, &'a [u8]),

    /// The same, and syncs the file.
    AppendAndSync(&'a str, &'a [u8]),
    Exists(&'a str),
    Children(&'a str),
    SizeOf(&'a str),
    Delete(&'a str),
    Mkdir(&'a str),

    /// Removes the folder with its files, and makes it again.
    Clear(&'a str),
    Rename(&'a str, &'a str),
    Lock(&'a str),
    Unlock(&'a str),
}

fn read_piece<E: Env>(env: &mut E, file: &mut E::File, text: &mut Vec<u8>) -> Result<bool> {
    let mut piece = [0; 3];
    let count = env.read(file, &mut piece)?;
    text.extend_from_slice(piece.as_slice().get(..count).unwrap_or_default())?;
    Ok(count > 0)
}

fn read<E: Env>(env: &mut E, name: &str, text: &mut Vec<u8>) -> Result<()> {
    let mut file = env.open_sequential_file(name)?;
    for _ in 0..u32::MAX {
        if !read_piece(env, &mut file, text)? {
            break;
        }
    }
    Ok(())
}

fn read_at<E: Env>(env: &mut E, name: &str, offset: usize, text: &mut Vec<u8>) -> Result<()> {
    let file = env.open_random_access_file(name)?;
    let mut bytes = [0; 64];
    let count = env.read_at(&file, offset, &mut bytes)?;
    text.extend_from_slice(bytes.as_slice().get(..count).unwrap_or_default())?;
    Ok(())
}

fn replace<E: Env>(env: &mut E, name: &str, bytes: &[u8]) -> Result<()> {
    let mut file = env.open_writable_file(name)?;
    env.append(&mut file, bytes)
}

fn append<E: Env>(env: &mut E, name: &str, bytes: &[u8], syncs: bool) -> Result<()> {
    let mut file = env.open_appendable_file(name)?;
    env.append(&mut file, bytes)?;
    if syncs {
        env.sync(&mut file)?;
    }
    Ok(())
}

fn list<E: Env>(env: &mut E, alloc: Global, folder: &str, text: &mut Vec<u8>) -> Result<()> {
    let mut names = env.children(alloc, folder)?;
    names.sort()?;
    for name in &names {
        text.extend_from_slice(name.as_bytes())?;
        text.push(b' ')?;
    }
    Ok(())
}

fn push_number(text: &mut Vec<u8>, number: usize) -> Result<()> {
    text.extend_from_slice(&number.to_le_bytes())?;
    Ok(())
}

fn clear<E: Env>(env: &mut E, folder: &str) -> Result<()> {
    env.rmdir(folder)?;
    env.mkdir(folder)
}

// Makes a call, and appends what it returned.
fn run<E: Env>(env: &mut E, alloc: Global, call: Call<'_>, text: &mut Vec<u8>) -> Result<()> {
    match call {
        Call::Read(name) => read(env, name, text),
        Call::ReadAt(name, offset) => read_at(env, name, offset, text),
        Call::Replace(name, bytes) => replace(env, name, bytes),
        Call::Append(name, bytes) => append(env, name, bytes, false),
        Call::AppendAndSync(name, bytes) => append(env, name, bytes, true),
        Call::Exists(name) => push_number(text, usize::from(env.exists(name)?)),
        Call::Children(folder) => list(env, alloc, folder, text),
        Call::SizeOf(name) => push_number(text, env.size_of(name)?),
        Call::Delete(name) => env.delete(name),
        Call::Mkdir(folder) => env.mkdir(folder),
        Call::Clear(folder) => clear(env, folder),
        Call::Rename(from, to) => env.rename(from, to),
        Call::Lock(name) => env.lock(name),
        Call::Unlock(name) => env.unlock(name),
    }
}

/// What a call returned: its bytes, names or number, and its code. Out of memory is passed on.
pub fn shown<E: Env>(env: &mut E, alloc: Global, call: Call<'_>) -> Result<(Vec<u8>, StatusCode)> {
    let mut text = Vec::new(alloc);
    match run(env, alloc, call, &mut text) {
        Ok(()) => Ok((text, StatusCode::OK)),
        Err(status) if status.code == StatusCode::OutOfMemory => Err(status),
        Err(status) => Ok((text, status.code)),
    }
}

/// The code of what a call returned.
pub fn code_of<E: Env>(env: &mut E, alloc: Global, call: Call<'_>) -> Result<StatusCode> {
    let (_, code) = shown(env, alloc, call)?;
    Ok(code)
}

/// The text of the error that a call gave, if it has one. A call that is Ok has the empty text.
pub fn text_of<E: Env>(env: &mut E, alloc: Global, call: Call<'_>) -> Result<Option<String>> {
    match run(env, alloc, call, &mut Vec::new(alloc)) {
        Ok(()) => Ok(Some(String::new(alloc))),
        Err(status) => Ok(status.err),
    }
}

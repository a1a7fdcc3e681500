//! Strange names in a folder, and what is made of it.
use super::calls::{Call, shown};
use leveldb_base::error::{Result, StatusCode};
use leveldb_disks::disk_env::PosixDiskEnv;
use leveldb_env::env::Env;
use os_system::OsSystem;
use std::alloc::Global;
use std::fs;
use std::os::unix::fs::{MetadataExt, symlink};
use std::rt::Files;

/// In a folder with an empty file `file` and a folder `folder`, of which `to_file` and `to_folder`
/// are links, beside links to the device `/dev/zero`, to nothing and to itself.
const CALLS: [(Call<'static>, &[u8], StatusCode); 14] = [
    (
        Call::Children("disk_tests_links"),
        b"file itself nothing to_file to_folder zero ",
        StatusCode::OK,
    ),
    (
        Call::Children("disk_tests_links/folder"),
        b"away itself ",
        StatusCode::OK,
    ),
    (
        Call::Exists("disk_tests_links/itself"),
        b"",
        StatusCode::IOError,
    ),
    (
        Call::Read("disk_tests_links/itself"),
        b"",
        StatusCode::IOError,
    ),
    (
        Call::Exists("disk_tests_links/nothing"),
        &[0; 8],
        StatusCode::OK,
    ),
    (
        Call::Exists("disk_tests_links/to_folder"),
        &[0; 8],
        StatusCode::OK,
    ),
    (
        Call::Read("disk_tests_links/to_folder"),
        b"",
        StatusCode::NotFound,
    ),
    (
        Call::Exists("disk_tests_links/to_file"),
        &[1, 0, 0, 0, 0, 0, 0, 0],
        StatusCode::OK,
    ),
    (
        Call::Exists("disk_tests_links/zero"),
        b"",
        StatusCode::IOError,
    ),
    (
        Call::SizeOf("disk_tests_links/zero"),
        b"",
        StatusCode::IOError,
    ),
    (
        Call::Read("disk_tests_links/zero"),
        b"",
        StatusCode::IOError,
    ),
    (
        Call::Append("disk_tests_links/zero", b"x"),
        b"",
        StatusCode::IOError,
    ),
    (
        Call::Lock("disk_tests_links/zero"),
        b"",
        StatusCode::IOError,
    ),
    (Call::Delete("disk_tests_links/zero"), b"", StatusCode::OK),
];

fn make_links<E: Env>(files: &impl Files, env: &mut E) -> Result<()> {
    env.rmdir("disk_tests_links")?;
    env.mkdir("disk_tests_links/folder")?;
    env.open_writable_file("disk_tests_links/file")?;
    symlink(files, "file", "disk_tests_links/to_file")?;
    symlink(files, "folder", "disk_tests_links/to_folder")?;
    symlink(files, "missing", "disk_tests_links/nothing")?;
    symlink(files, "/dev/zero", "disk_tests_links/zero")?;
    symlink(files, "itself", "disk_tests_links/itself")?;
    symlink(files, "itself", "disk_tests_links/folder/itself")?;
    symlink(files, "../../..", "disk_tests_links/folder/away")?;
    Ok(())
}

/// The index of the first call that returns something else, if one does.
fn first_other<E: Env>(files: &impl Files, env: &mut E, alloc: Global) -> Result<Option<usize>> {
    make_links(files, env)?;
    for (at, (call, bytes, code)) in CALLS.iter().enumerate() {
        let (found, found_code) = shown(env, alloc, *call)?;
        if found.as_slice() != *bytes || found_code != *code {
            return Ok(Some(at));
        }
    }
    env.rmdir("disk_tests_links")?;
    Ok(None)
}

/// No name in a folder makes a listing fail, and what is no file is refused at once.
#[test]
fn strange_names_are_listed_and_refused(rt: HostRuntime) -> Result<()> {
    let alloc = rt.alloc();
    let other = first_other(&rt, &mut PosixDiskEnv::new(&rt), alloc)?;
    assert!(rt; other == None, "call {other:?}");
    let mut env = PosixDiskEnv::new(OsSystem::new(alloc));
    let other = first_other(&rt, &mut env, alloc)?;
    assert!(rt; other == None, "call {other:?} of os_system");
    Ok(())
}

/// Makes folders in folders, with files and links out of them, and removes the outermost; then a
/// link to a folder, which is removed alone.
fn remove_nested<E: Env>(files: &(impl Files + AllocGlobal), env: &mut E) -> Result<()> {
    env.mkdir("disk_tests_nested/kept")?;
    env.open_writable_file("disk_tests_nested/kept/file")?;
    for folder in ["a/b/c", "a/b/d", "a/e", "f"] {
        let folder = format!(in files.alloc(); "disk_tests_nested/root/{folder}")?;
        env.mkdir(folder.as_str())?;
        for name in ["one", "two"] {
            let name = format!(in files.alloc(); "{folder}/{name}")?;
            env.open_writable_file(name.as_str())?;
        }
    }
    symlink(files, "../../kept", "disk_tests_nested/root/a/link")?;
    env.rmdir("disk_tests_nested/root")?;
    symlink(files, "kept", "disk_tests_nested/link")?;
    env.rmdir("disk_tests_nested/link")
}

/// Whether the links' goal is there, and nothing else.
fn is_kept_alone<E: Env>(files: &(impl Files + AllocGlobal), env: &mut E) -> Result<bool> {
    remove_nested(files, env)?;
    let kept = env.exists("disk_tests_nested/kept/file")?;
    let others = fs::exists(files, "disk_tests_nested/root")?
        || fs::symlink_metadata(files, "disk_tests_nested/link").is_ok();
    env.rmdir("disk_tests_nested")?;
    Ok(kept && !others && !fs::exists(files, "disk_tests_nested")?)
}

/// A folder is removed with all that is in it, and nothing to which a link in it leads.
#[test]
fn no_link_is_followed_by_a_removal(rt: HostRuntime) -> Result<()> {
    assert!(rt; is_kept_alone(&rt, &mut PosixDiskEnv::new(&rt))?);
    let mut env = PosixDiskEnv::new(OsSystem::new(rt.alloc()));
    assert!(rt; is_kept_alone(&rt, &mut env)?);
    Ok(())
}

/// The permissions that a new name has beyond those that it may have.
fn beyond(files: &impl Files, name: &str, most: u32) -> Result<u32> {
    Ok(fs::metadata(files, name)?.mode() & 0o7777 & !most)
}

/// The permissions that new names have beyond these.
fn all_beyond<E: Env>(files: &impl Files, env: &mut E) -> Result<u32> {
    env.mkdir("disk_tests_modes/folder")?;
    env.open_writable_file("disk_tests_modes/file")?;
    env.lock("disk_tests_modes/lock")?;
    let found = beyond(files, "disk_tests_modes", 0o755)?
        | beyond(files, "disk_tests_modes/folder", 0o755)?
        | beyond(files, "disk_tests_modes/file", 0o644)?
        | beyond(files, "disk_tests_modes/lock", 0o644)?;
    env.rmdir("disk_tests_modes")?;
    Ok(found)
}

/// Only their owner may write to new files and folders, whatever the process would let others do.
#[test]
fn others_may_not_write(rt: HostRuntime) -> Result<()> {
    assert!(rt; all_beyond(&rt, &mut PosixDiskEnv::new(&rt))? == 0);
    let mut env = PosixDiskEnv::new(OsSystem::new(rt.alloc()));
    assert!(rt; all_beyond(&rt, &mut env)? == 0);
    Ok(())
}

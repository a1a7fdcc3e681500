//! The errors that a folder can be made to give.
use super::calls::{Call, code_of, text_of};
use leveldb_base::error::{Result, StatusCode};
use leveldb_disks::disk_env::PosixDiskEnv;
use leveldb_env::env::Env;
use os_system::OsSystem;
use std::alloc::Global;
use std::fs::{self, Permissions};
use std::os::unix::fs::PermissionsExt;
use std::rt::Files;

const LONG: &str =
    "disk_tests_errors/eeeeeeeeeeeeeeeeeeeeeeeeeeeeeeeeeeeeeeeeeeeeeeeeeeeeeeeeeeeeeeeeee\
eeeeeeeeeeeeeeeeeeeeeeeeeeeeeeeeeeeeeeeeeeeeeeeeeeeeeeeeeeeeeeeeeeeeeeeeeeeeeeeeeeeeeeeeeeeeeeeeee\
eeeeeeeeeeeeeeeeeeeeeeeeeeeeeeeeeeeeeeeeeeeeeeeeeeeeeeeeeeeeeeeeeeeeeeeeeeeeeeeeeeeeeeeeeeeeeeeeee";

const FILE: &str = "disk_tests_errors/file";

/// In a folder with an empty file `file` and a folder `folder`.
const ERRORS: [(Call<'static>, StatusCode); 37] = [
    // a name that is missing
    (Call::Read("disk_tests_errors/x"), StatusCode::NotFound),
    (Call::ReadAt("disk_tests_errors/x", 0), StatusCode::NotFound),
    (Call::SizeOf("disk_tests_errors/x"), StatusCode::NotFound),
    (Call::Delete("disk_tests_errors/x"), StatusCode::NotFound),
    (
        Call::Rename("disk_tests_errors/x", FILE),
        StatusCode::NotFound,
    ),
    (Call::Read(""), StatusCode::NotFound),
    // a folder that is missing
    (
        Call::Append("disk_tests_errors/x/y", b""),
        StatusCode::NotFound,
    ),
    (
        Call::Replace("disk_tests_errors/x/y", b""),
        StatusCode::NotFound,
    ),
    (Call::Lock("disk_tests_errors/x/y"), StatusCode::NotFound),
    (
        Call::Rename(FILE, "disk_tests_errors/x/y"),
        StatusCode::NotFound,
    ),
    (Call::Children("disk_tests_errors/x"), StatusCode::NotFound),
    (Call::Exists("disk_tests_errors/x/y"), StatusCode::OK),
    // a folder under the name
    (Call::Read("disk_tests_errors/folder"), StatusCode::NotFound),
    (
        Call::SizeOf("disk_tests_errors/folder"),
        StatusCode::NotFound,
    ),
    (
        Call::Append("disk_tests_errors/folder", b""),
        StatusCode::IOError,
    ),
    (
        Call::Replace("disk_tests_errors/folder", b""),
        StatusCode::IOError,
    ),
    (Call::Lock("disk_tests_errors/folder"), StatusCode::IOError),
    (
        Call::Delete("disk_tests_errors/folder"),
        StatusCode::IOError,
    ),
    (
        Call::Rename(FILE, "disk_tests_errors/folder"),
        StatusCode::IOError,
    ),
    (Call::Exists("disk_tests_errors/folder"), StatusCode::OK),
    // a file in a folder's place
    (Call::Read("disk_tests_errors/file/x"), StatusCode::IOError),
    (
        Call::Append("disk_tests_errors/file/x", b""),
        StatusCode::IOError,
    ),
    (Call::Children(FILE), StatusCode::IOError),
    (Call::Mkdir(FILE), StatusCode::IOError),
    (Call::Mkdir("disk_tests_errors/file/x"), StatusCode::IOError),
    (Call::Exists("disk_tests_errors/file/x"), StatusCode::OK),
    // names that the system doesn't take
    (Call::Append(LONG, b""), StatusCode::IOError),
    (
        Call::Append("disk_tests_errors/\0", b""),
        StatusCode::InvalidArgument,
    ),
    // a device under the name
    (Call::Read("/dev/zero"), StatusCode::IOError),
    (Call::ReadAt("/dev/zero", 0), StatusCode::IOError),
    (Call::Append("/dev/full", b""), StatusCode::IOError),
    (Call::Replace("/dev/null", b""), StatusCode::IOError),
    (Call::Exists("/dev/zero"), StatusCode::IOError),
    (Call::SizeOf("/dev/zero"), StatusCode::IOError),
    (Call::Lock("/dev/null"), StatusCode::IOError),
    // a lock that is free
    (Call::Unlock(FILE), StatusCode::LockError),
    (Call::Exists(FILE), StatusCode::OK),
];

/// In a folder that can't be written to, beside an empty file `file` in it that can't be read.
const DENIED: [(Call<'static>, StatusCode); 7] = [
    (
        Call::Read("disk_tests_denied/file"),
        StatusCode::PermissionDenied,
    ),
    (
        Call::Append("disk_tests_denied/x", b""),
        StatusCode::PermissionDenied,
    ),
    (
        Call::Replace("disk_tests_denied/x", b""),
        StatusCode::PermissionDenied,
    ),
    (
        Call::Delete("disk_tests_denied/file"),
        StatusCode::PermissionDenied,
    ),
    (
        Call::Rename("disk_tests_denied/file", "disk_tests_denied/x"),
        StatusCode::PermissionDenied,
    ),
    (
        Call::Lock("disk_tests_denied/x"),
        StatusCode::PermissionDenied,
    ),
    (
        Call::Mkdir("disk_tests_denied/x"),
        StatusCode::PermissionDenied,
    ),
];

/// The index of the first call with another code, if there is one.
fn first_other<E: Env>(
    env: &mut E,
    alloc: Global,
    calls: &[(Call<'static>, StatusCode)],
) -> Result<Option<usize>> {
    for (at, (call, code)) in calls.iter().enumerate() {
        if code_of(env, alloc, *call)? != *code {
            return Ok(Some(at));
        }
    }
    Ok(None)
}

/// The same of `ERRORS`, which leave the file as it is.
fn first_other_error<E: Env>(env: &mut E, alloc: Global) -> Result<Option<usize>> {
    env.rmdir("disk_tests_errors")?;
    env.mkdir("disk_tests_errors/folder")?;
    env.open_appendable_file(FILE)?;
    if let Some(other) = first_other(env, alloc, &ERRORS)? {
        return Ok(Some(other));
    }
    if env.size_of(FILE)? > 0 {
        return Ok(Some(ERRORS.len()));
    }
    env.rmdir("disk_tests_errors")?;
    Ok(None)
}

#[test]
fn folders_give_errors(rt: HostRuntime) -> Result<()> {
    let alloc = rt.alloc();
    let other = first_other_error(&mut PosixDiskEnv::new(&rt), alloc)?;
    assert!(rt; other == None, "call {other:?}");
    let other = first_other_error(&mut PosixDiskEnv::new(OsSystem::new(alloc)), alloc)?;
    assert!(rt; other == None, "call {other:?} of os_system");
    Ok(())
}

/// Makes a folder that can't be written to, with a file that can't be read.
fn close_folder<E: Env>(files: &impl Files, env: &mut E) -> Result<()> {
    env.rmdir("disk_tests_denied")?;
    env.mkdir("disk_tests_denied")?;
    env.open_appendable_file("disk_tests_denied/file")?;
    let mode = Permissions::from_mode(0o222);
    fs::set_permissions(files, "disk_tests_denied/file", mode)?;
    fs::set_permissions(files, "disk_tests_denied", Permissions::from_mode(0o555))?;
    Ok(())
}

/// The index of the first call that isn't denied. Root may write to the folder in spite of its
/// mode, and then there is none.
fn first_allowed<E: Env>(files: &impl Files, env: &mut E, alloc: Global) -> Result<Option<usize>> {
    close_folder(files, env)?;
    let is_root = code_of(env, alloc, Call::Append("disk_tests_denied/x", b""))? == StatusCode::OK;
    let found = if is_root {
        None
    } else {
        first_other(env, alloc, &DENIED)?
    };
    fs::set_permissions(files, "disk_tests_denied", Permissions::from_mode(0o755))?;
    env.rmdir("disk_tests_denied")?;
    Ok(found)
}

#[test]
fn modes_give_errors(rt: HostRuntime) -> Result<()> {
    let alloc = rt.alloc();
    let allowed = first_allowed(&rt, &mut PosixDiskEnv::new(&rt), alloc)?;
    assert!(rt; allowed == None, "call {allowed:?}");
    let allowed = first_allowed(&rt, &mut PosixDiskEnv::new(OsSystem::new(alloc)), alloc)?;
    assert!(rt; allowed == None, "call {allowed:?} of os_system");
    Ok(())
}

/// In the folder of `ERRORS`: calls that fail, and their texts.
const TEXTS: [(Call<'static>, &str); 17] = [
    (
        Call::Read("disk_tests_texts/x"),
        "NotFound: open disk_tests_texts/x: No such file or directory (os error 2)",
    ),
    (
        Call::ReadAt("/dev/zero", 0),
        "IOError: open /dev/zero: it is no regular file",
    ),
    // a file whose first byte can't be read
    (
        Call::Read("/proc/self/mem"),
        "IOError: read /proc/self/mem: Input/output error (os error 5)",
    ),
    (
        Call::ReadAt("/proc/self/mem", 0),
        "IOError: read /proc/self/mem: Input/output error (os error 5)",
    ),
    (
        Call::Replace("disk_tests_texts/x/y", b""),
        "NotFound: create disk_tests_texts/x/y: No such file or directory (os error 2)",
    ),
    (
        Call::Append("disk_tests_texts/folder", b""),
        "IOError: open disk_tests_texts/folder: Is a directory (os error 21)",
    ),
    (
        Call::Exists("/dev/zero"),
        "IOError: look for /dev/zero: it is no regular file",
    ),
    (
        Call::SizeOf("disk_tests_texts/folder"),
        "NotFound: look at disk_tests_texts/folder: it is a folder",
    ),
    (
        Call::Children("disk_tests_texts/x"),
        "NotFound: list disk_tests_texts/x: No such file or directory (os error 2)",
    ),
    (
        Call::Delete("disk_tests_texts/folder"),
        "IOError: delete disk_tests_texts/folder: Is a directory (os error 21)",
    ),
    (
        Call::Rename("disk_tests_texts/file", "disk_tests_texts/x/y"),
        "NotFound: rename disk_tests_texts/file to disk_tests_texts/x/y: \
No such file or directory (os error 2)",
    ),
    (
        Call::Mkdir("disk_tests_texts/file"),
        "IOError: make folder disk_tests_texts/file: File exists (os error 17)",
    ),
    (
        Call::Mkdir("disk_tests_texts/file/x/y"),
        "IOError: make folder disk_tests_texts/file/x/y: Not a directory (os error 20)",
    ),
    (
        Call::Clear("disk_tests_texts/file"),
        "IOError: remove folder disk_tests_texts/file: Not a directory (os error 20)",
    ),
    (
        Call::Lock("disk_tests_texts/folder"),
        "IOError: lock disk_tests_texts/folder: Is a directory (os error 21)",
    ),
    (
        Call::Lock("disk_tests_texts/held"),
        "LockError: lock disk_tests_texts/held: already held",
    ),
    (
        Call::Unlock("disk_tests_texts/file"),
        "LockError: unlock disk_tests_texts/file: not held",
    ),
];

/// The index of the first call that gives another text, if one does. There may be no memory for a
/// text.
fn first_other_text<E: Env>(env: &mut E, alloc: Global) -> Result<Option<usize>> {
    env.rmdir("disk_tests_texts")?;
    env.mkdir("disk_tests_texts/folder")?;
    env.open_appendable_file("disk_tests_texts/file")?;
    env.lock("disk_tests_texts/held")?;
    for (at, (call, text)) in TEXTS.iter().enumerate() {
        let found = text_of(env, alloc, *call)?;
        if found.as_ref().map_or(*text, |text| text.as_str()) != *text {
            return Ok(Some(at));
        }
    }
    env.unlock("disk_tests_texts/held")?;
    env.rmdir("disk_tests_texts")?;
    Ok(None)
}

/// An error's text says what was being done to which file, and what the system says.
#[test]
fn errors_name_the_file(rt: HostRuntime) -> Result<()> {
    let alloc = rt.alloc();
    let other = first_other_text(&mut PosixDiskEnv::new(&rt), alloc)?;
    assert!(rt; other == None, "call {other:?}");
    let other = first_other_text(&mut PosixDiskEnv::new(OsSystem::new(alloc)), alloc)?;
    assert!(rt; other == None, "call {other:?} of os_system");
    Ok(())
}

/// Another environment holds the lock.
#[test]
fn held_locks_are_named(rt: HostRuntime) -> Result<()> {
    let mut holder = PosixDiskEnv::new(&rt);
    holder.mkdir("disk_tests_held")?;
    holder.lock("disk_tests_held/LOCK")?;
    let mut env = PosixDiskEnv::new(&rt);
    let found = text_of(&mut env, rt.alloc(), Call::Lock("disk_tests_held/LOCK"))?;
    let text = "LockError: lock disk_tests_held/LOCK: already held";
    assert!(rt; found.as_ref().map_or(text, |text| text.as_str()) == text);
    drop(env);
    holder.unlock("disk_tests_held/LOCK")?;
    holder.rmdir("disk_tests_held")
}

fn has_text(answer: Result<()>, text: &str) -> bool {
    let Err(status) = answer else {
        return false;
    };
    status.err.as_ref().map_or(text, |text| text.as_str()) == text
}

/// Of an open file the errors have the name under which it was opened, also once it is gone.
#[test]
fn open_files_are_named(rt: HostRuntime) -> Result<()> {
    let mut env = PosixDiskEnv::new(&rt);
    env.mkdir("disk_tests_named")?;
    env.open_writable_file("disk_tests_named/file")?;
    let mut file = env.open_sequential_file("disk_tests_named/file")?;
    env.rename("disk_tests_named/file", "disk_tests_named/other")?;
    let text = "IOError: append disk_tests_named/file: Bad file descriptor (os error 9)";
    assert!(rt; has_text(env.append(&mut file, b"x"), text));
    // a file of the system that can't be synced
    let mut file = env.open_sequential_file("/proc/self/stat")?;
    let text = "InvalidArgument: sync /proc/self/stat: Invalid argument (os error 22)";
    assert!(rt; has_text(env.sync(&mut file), text));
    let text = "IOError: sync /proc/self/stat: an earlier sync failed: open it again";
    assert!(rt; has_text(env.sync(&mut file), text));
    env.rmdir("disk_tests_named")
}

/// A handle that was opened to be read takes no bytes.
#[test]
fn reading_handles_take_no_bytes(rt: HostRuntime) -> Result<()> {
    let mut env = PosixDiskEnv::new(&rt);
    env.mkdir("disk_tests_reading")?;
    env.open_writable_file("disk_tests_reading/file")?;
    let mut file = env.open_sequential_file("disk_tests_reading/file")?;
    let refused = env.append(&mut file, b"x");
    assert!(rt; refused.is_err_and(|status| status.code == StatusCode::IOError));
    env.rmdir("disk_tests_reading")
}

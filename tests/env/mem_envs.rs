//! A disk in memory, call by call.

use super::disks::{Call, handle_of, names_of, no_tails, pick_of, run, run_all, show_file};
use leveldb_base::error::StatusCode::{InvalidArgument, LockError, NotFound, OK, OutOfMemory};
use leveldb_base::error::{Result, Status, StatusCode};
use leveldb_env::env::Env;
use leveldb_env::mem_env::{MemEnv, MemHandle};
use std::alloc::{AllocError, Global};
use std::process::Abort;
use support::{code_of, failed_with};

/// Appends a name with what `left`, the disk that a crash leaves, keeps of its file, and what was
/// appended since.
fn show(
    text: &mut Vec<u8>,
    env: &mut MemEnv,
    left: &mut MemEnv,
    alloc: Global,
    name: &str,
) -> Result<()> {
    let mut bytes = [0; 8];
    let count = env.read_at(&handle_of(alloc, name)?, 0, &mut bytes)?;
    let kept = left.size_of(name)?;
    let bytes = bytes.as_slice().get(..count).unwrap_or_default();
    show_file(
        text,
        name,
        bytes.get(..kept).unwrap_or_default(),
        bytes.get(kept..).unwrap_or_default(),
    )
}

/// Appends each of these names in this way.
fn show_each(
    text: &mut Vec<u8>,
    env: &mut MemEnv,
    left: &mut MemEnv,
    alloc: Global,
    names: &[String],
) -> Result<()> {
    for name in names {
        show(text, env, left, alloc, name.as_str())?;
    }
    Ok(())
}

/// Each name with what a crash keeps of its file, a bar and what was appended since.
fn shown(env: &mut MemEnv, alloc: Global) -> Result<Vec<u8>> {
    let mut left = env.crashed(alloc, &no_tails(alloc, false))?;
    let names = names_of(env, alloc)?;
    let mut text = Vec::with_capacity(alloc, 64)?;
    show_each(&mut text, env, &mut left, alloc, &names)?;
    Ok(text)
}

/// Whether these are the files.
fn are_shown(env: &mut MemEnv, alloc: Global, files: &[u8]) -> Result<bool> {
    Ok(shown(env, alloc)?.as_slice() == files)
}

/// A call, the code of what it returns, and the files after it.
type Row = (Call, StatusCode, &'static str);

static CALLS: [Row; 22] = [
    (Call::Mkdir("db"), OK, ""),
    (Call::OpenWritable("db/a"), OK, "db/a= "),
    (Call::Append("db/a", "one"), OK, "db/a=|one "),
    (Call::Sync("db/a"), OK, "db/a=one "),
    (Call::Append("db/a", "two"), OK, "db/a=one|two "),
    (Call::OpenAppendable("db/a"), OK, "db/a=one|two "),
    (Call::OpenAppendable("db2/x"), OK, "db/a=one|two db2/x= "),
    (Call::Append("db/b", "z"), NotFound, "db/a=one|two db2/x= "),
    (Call::Sync("db/b"), NotFound, "db/a=one|two db2/x= "),
    (Call::Delete("db/b"), NotFound, "db/a=one|two db2/x= "),
    (
        Call::Rename("db/b", "db/a"),
        NotFound,
        "db/a=one|two db2/x= ",
    ),
    (Call::Rename("db/a", "db/a"), OK, "db/a=one|two db2/x= "),
    (Call::Rename("db/a", "db/c"), OK, "db/c=one|two db2/x= "),
    (Call::Lock("db/l"), OK, "db/c=one|two db/l= db2/x= "),
    (Call::Lock("db/l"), LockError, "db/c=one|two db/l= db2/x= "),
    (Call::Lock("db/c"), OK, "db/c=one|two db/l= db2/x= "),
    (Call::Unlock("db/l"), OK, "db/c=one|two db/l= db2/x= "),
    (
        Call::Unlock("db/l"),
        LockError,
        "db/c=one|two db/l= db2/x= ",
    ),
    (Call::Rename("db/c", "db/l"), OK, "db/l=one|two db2/x= "),
    (Call::OpenWritable("db/l"), OK, "db/l= db2/x= "),
    (Call::Rmdir("db"), OK, "db2/x= "),
    (Call::Delete("db2/x"), OK, ""),
];

/// Makes a call, and once more where it is out of memory: it then left the files as they were.
fn run_twice(
    rt: &(impl Abort + AllocGlobal),
    env: &mut MemEnv,
    call: Call,
) -> Result<[StatusCode; 2]> {
    let before = shown(env, rt.alloc())?;
    let first = code_of(&run(env, rt.alloc(), call));
    if first != OutOfMemory {
        return Ok([first, first]);
    }
    assert!(rt; are_shown(env, rt.alloc(), &before)?);
    Ok([first, code_of(&run(env, rt.alloc(), call))])
}

/// Makes the call of a row, and asserts its code and the files after it. Returns whether it was out
/// of memory at first.
fn assert_call(rt: &(impl Abort + AllocGlobal), env: &mut MemEnv, row: &Row) -> Result<bool> {
    let (call, code, files) = row;
    let [first, last] = run_twice(rt, env, *call)?;
    assert!(rt; last == *code, "the call before {files:?}");
    assert!(rt; are_shown(env, rt.alloc(), files.as_bytes())?, "{files}");
    Ok(first == OutOfMemory)
}

/// A call that is out of memory leaves the files as they were, and is made again; the test then
/// ends with that error.
#[test]
fn calls_are_done_at_once_or_not_at_all(rt: HostRuntime) -> Result<()> {
    let mut env = MemEnv::new(rt.alloc());
    let mut is_out_of_memory = false;
    for row in &CALLS {
        is_out_of_memory |= assert_call(&rt, &mut env, row)?;
    }
    if is_out_of_memory {
        return Err(Status::from(AllocError));
    }
    Ok(())
}

const TORN: [Call; 10] = [
    Call::OpenWritable("a"),
    Call::Append("a", "A"),
    Call::Sync("a"),
    Call::OpenWritable("b"),
    Call::Append("b", "1"),
    Call::OpenWritable("c"),
    Call::Append("c", "C"),
    Call::Sync("c"),
    Call::Append("c", "123"),
    Call::Lock("a"),
];

/// Three files, after whose kept bytes 0, 1 and 3 were appended.
fn torn(alloc: Global) -> Result<MemEnv> {
    let mut env = MemEnv::new(alloc);
    run_all(&mut env, alloc, &TORN)?;
    env.set_micros(7);
    Ok(env)
}

/// The names and tails that a crash picks.
type Tails = &'static [(&'static str, &'static str)];

/// What a crash picks, and the files that it leaves.
const PICKED: [(Tails, &str); 5] = [
    (&[], "a=A b= c=C "),
    (&[("a", ""), ("b", ""), ("c", "")], "a=A b= c=C "),
    (&[("c", "xy"), ("b", "1")], "a=A b=1 c=Cxy "),
    (&[("c", "321"), ("b", "x")], "a=A b=x c=C321 "),
    (&[("c", "124")], "a=A b= c=C124 "),
];

/// Whether a crash that picks these tails leaves these files, the time as it was and no lock.
fn leaves(env: &MemEnv, alloc: Global, tails: Tails, files: &str) -> Result<bool> {
    let pick = pick_of(alloc, tails)?;
    let mut left = env.crashed(alloc, &pick)?;
    left.lock("a")?;
    Ok(left.micros()? == 7 && are_shown(&mut left, alloc, files.as_bytes())?)
}

fn assert_left(rt: &(impl Abort + AllocGlobal), env: &MemEnv) -> Result<()> {
    for (tails, files) in &PICKED {
        assert!(rt; leaves(env, rt.alloc(), tails, files)?, "{files}");
    }
    Ok(())
}

#[test]
fn a_crash_leaves_each_tail_that_is_picked(rt: HostRuntime) -> Result<()> {
    let env = torn(rt.alloc())?;
    assert_left(&rt, &env)
}

const NOT_LEFT: [Tails; 6] = [
    &[("a", "x")],
    &[("b", "12")],
    &[("c", "1234")],
    &[("d", "")],
    &[("b", "1"), ("b", "")],
    &[("c", "1"), ("b", "1"), ("c", "1")],
];

/// Whether no crash leaves these tails.
fn is_never_left(env: &MemEnv, alloc: Global, tails: Tails) -> Result<bool> {
    let pick = pick_of(alloc, tails)?;
    failed_with(env.crashed(alloc, &pick), InvalidArgument)
}

fn assert_never_left(rt: &(impl Abort + AllocGlobal), env: &MemEnv) -> Result<()> {
    for tails in &NOT_LEFT {
        assert!(rt; is_never_left(env, rt.alloc(), tails)?, "{tails:?}");
    }
    Ok(())
}

#[test]
fn a_crash_leaves_no_other(rt: HostRuntime) -> Result<()> {
    let env = torn(rt.alloc())?;
    assert_never_left(&rt, &env)
}

const LOG: &str = "db/000003.log";

/// Writes nine bytes, and opens their file.
fn open_nine(env: &mut MemEnv) -> Result<MemHandle> {
    let mut file = env.open_writable_file(LOG)?;
    env.append(&mut file, b"123456789")?;
    env.open_sequential_file(LOG)
}

/// How many bytes each read gives, and what the target of four bytes is then.
const READS: [(usize, [u8; 4]); 4] = [(4, *b"1234"), (4, *b"5678"), (1, *b"9678"), (0, *b"9678")];

#[test]
fn a_file_is_read(rt: HostRuntime) -> Result<()> {
    let mut env = MemEnv::new(rt.alloc());
    let mut file = open_nine(&mut env)?;
    let mut target = [0; 4];
    for (count, bytes) in &READS {
        assert!(rt; env.read(&mut file, &mut target)? == *count);
        assert!(rt; target == *bytes);
    }
    assert!(rt; env.read_at(&file, 7, &mut target)? == 2);
    assert!(rt; target == *b"8978");
    Ok(())
}

fn are_names(found: &[String], wanted: &[&str]) -> bool {
    let are_equal = found
        .iter()
        .zip(wanted)
        .all(|(found, wanted)| found.as_str() == *wanted);
    are_equal && found.len() == wanted.len()
}

/// Whether a folder has these names, in order.
fn are_listed(env: &mut MemEnv, alloc: Global, folder: &str, names: &[&str]) -> Result<bool> {
    let mut children = env.children(alloc, folder)?;
    children.sort()?;
    Ok(are_names(&children, names))
}

/// Whether the file of nine bytes is there, and its folder is no file.
fn has_nine(env: &mut MemEnv) -> Result<bool> {
    Ok(env.size_of(LOG)? == 9 && env.exists(LOG)? && !env.exists("db")?)
}

#[test]
fn a_file_has_a_size(rt: HostRuntime) -> Result<()> {
    let mut env = MemEnv::new(rt.alloc());
    open_nine(&mut env)?;
    assert!(rt; has_nine(&mut env)?);
    Ok(())
}

const MORE_FILES: [&str; 4] = ["db/CURRENT", "db/deeper/x", "db2/y", "dbz"];

/// Makes the file of nine bytes and the others.
fn open_all(env: &mut MemEnv) -> Result<()> {
    open_nine(env)?;
    for name in &MORE_FILES {
        env.open_appendable_file(name)?;
    }
    Ok(())
}

#[test]
fn files_are_listed(rt: HostRuntime) -> Result<()> {
    let mut env = MemEnv::new(rt.alloc());
    open_all(&mut env)?;
    assert!(rt; are_listed(&mut env, rt.alloc(), "db", &["000003.log", "CURRENT"])?);
    assert!(rt; are_listed(&mut env, rt.alloc(), "none", &[])?);
    Ok(())
}

/// The text of an error. That there is none means that there was no memory for it.
fn text_of<T: Drop>(answer: Result<T>) -> Result<String> {
    match answer {
        Err(
            Status {
                err: Some(text),
                ..
            },
        ) => Ok(text),
        _ => Err(Status::from(AllocError)),
    }
}

#[test]
fn errors_say_which_name(rt: HostRuntime) -> Result<()> {
    let mut env = MemEnv::new(rt.alloc());
    let text = text_of(env.size_of("db/CURRENT"))?;
    assert!(rt; text.as_str() == "NotFound: no such file: db/CURRENT");
    env.lock("db/LOCK")?;
    let text = text_of(env.lock("db/LOCK"))?;
    assert!(rt; text.as_str() == "LockError: already locked: db/LOCK");
    Ok(())
}

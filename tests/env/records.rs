//! A run of calls, each of its moments, and what a crash leaves of them.

use super::disks::{Call, handle_of, names_of, no_tails, pick_of, run, run_all, show_file};
use leveldb_base::error::StatusCode::{IOError, InvalidArgument, LockError, NotFound, OK};
use leveldb_base::error::{Result, StatusCode};
use leveldb_disks::mem_env::RecordEnv;
use leveldb_env::env::Env;
use std::alloc::Global;
use std::process::Abort;
use support::{code_of, failed_with};

/// The code of what a call returns. Out of memory ends the test.
fn code_after(env: &mut RecordEnv, alloc: Global, call: Call) -> Result<StatusCode> {
    let answer = run(env, alloc, call);
    match code_of(&answer) {
        StatusCode::OutOfMemory => answer.map(|_| StatusCode::OutOfMemory),
        code => Ok(code),
    }
}

/// The tail that there is for a name.
fn tail_of<'a>(tails: &'a [(String, Vec<u8>)], name: &str) -> &'a [u8] {
    for (named, tail) in tails {
        if named.as_str() == name {
            return tail;
        }
    }
    &[]
}

/// Appends a name with its file on a disk.
fn show(
    text: &mut Vec<u8>,
    left: &mut RecordEnv,
    tails: &[(String, Vec<u8>)],
    alloc: Global,
    name: &str,
) -> Result<()> {
    let mut bytes = [0; 8];
    let count = left.read_at(&handle_of(alloc, name)?, 0, &mut bytes)?;
    let kept = bytes.as_slice().get(..count).unwrap_or_default();
    show_file(text, name, kept, tail_of(tails, name))
}

/// Each name of a disk with its file, a bar and the tail that there is for it.
fn shown_with(left: &mut RecordEnv, tails: &[(String, Vec<u8>)], alloc: Global) -> Result<Vec<u8>> {
    let names = names_of(left, alloc)?;
    let mut text = Vec::with_capacity(alloc, 64)?;
    for name in &names {
        show(&mut text, left, tails, alloc, name.as_str())?;
    }
    Ok(text)
}

/// Each name at a moment with what a crash without tails leaves, a bar and what it may leave more.
fn shown(env: &RecordEnv, alloc: Global, moment: u64, after: bool) -> Result<Vec<u8>> {
    let mut left = env.disk_at(alloc, moment, &no_tails(alloc, after))?;
    let tails = env.tails(alloc, moment, after)?;
    shown_with(&mut left, &tails, alloc)
}

/// Each row is a call, with how it's chosen to fail, the code that it returns, the files inside it
/// on either side, and the files after it.
type Row = (
    Call,
    Option<bool>,
    StatusCode,
    &'static str,
    &'static str,
    &'static str,
);

#[rattlefmt::skip]
static ROWS: [Row; 24] = [
    (Call::Mkdir("db"), None, OK, "", "", ""),
    (Call::OpenWritable("a"), None, OK, "", "a= ", "a= "),
    (Call::Append("a", "one"), None, OK, "a=|one ", "a=|one ", "a=|one "),
    (Call::Sync("a"), None, OK, "a=|one ", "a=|one ", "a=one "),
    (Call::Append("a", "two"), None, OK, "a=one|two ", "a=one|two ", "a=one|two "),
    (Call::OpenAppendable("b"), None, OK, "a=one|two ", "a=one|two b= ", "a=one|two b= "),
    (Call::Rename("a", "c"), None, OK, "a=one|two b= ", "b= c=one|two ", "b= c=one|two "),
    (Call::Lock("l"), None, OK, "b= c=one|two ", "b= c=one|two l= ", "b= c=one|two l= "),
    (Call::Lock("l"), None, LockError, "b= c=one|two l= ", "b= c=one|two l= ", "b= c=one|two l= "),
    (Call::Unlock("l"), None, OK, "b= c=one|two l= ", "b= c=one|two l= ", "b= c=one|two l= "),
    (Call::Unlock("l"), None, LockError,
        "b= c=one|two l= ", "b= c=one|two l= ", "b= c=one|two l= "),
    (Call::Append("z", "x"), None, NotFound,
        "b= c=one|two l= ", "b= c=one|two l= ", "b= c=one|two l= "),
    (Call::Delete("b"), None, OK, "b= c=one|two l= ", "c=one|two l= ", "c=one|two l= "),
    (Call::OpenWritable("c"), None, OK, "c=one|two l= ", "c= l= ", "c= l= "),
    (Call::OpenWritable("db/x"), None, OK, "c= l= ", "c= db/x= l= ", "c= db/x= l= "),
    (Call::Rmdir("db"), None, OK, "c= db/x= l= ", "c= l= ", "c= l= "),
    (Call::Append("c", "z"), Some(true), IOError, "c=|z l= ", "c=|z l= ", "c=|z l= "),
    (Call::Append("c", "y"), Some(false), IOError, "c=|zy l= ", "c=|zy l= ", "c=|z l= "),
    (Call::Sync("c"), Some(true), IOError, "c=|z l= ", "c=|z l= ", "c=|z l= "),
    (Call::Delete("c"), Some(false), IOError, "c=|z l= ", "l= ", "c=|z l= "),
    (Call::Rename("c", "d"), Some(true), IOError, "c=|z l= ", "d=|z l= ", "d=|z l= "),
    (Call::Lock("m"), Some(true), IOError, "d=|z l= ", "d=|z l= m= ", "d=|z l= m= "),
    (Call::Exists("d"), Some(true), IOError, "d=|z l= m= ", "d=|z l= m= ", "d=|z l= m= "),
    (Call::Lock("m"), None, OK, "d=|z l= m= ", "d=|z l= m= ", "d=|z l= m= "),
];

/// Makes a row's call, which fails if that is chosen.
fn assert_row(rt: &(impl Abort + AllocGlobal), env: &mut RecordEnv, row: &Row) -> Result<()> {
    let (call, fails, code, _, _, files) = row;
    if let Some(done) = fails {
        env.fail(1, *done);
    }
    assert!(rt;
        code_after(env, rt.alloc(), *call)? == *code,
        "the call before {files:?}"
    );
    Ok(())
}

/// The environment after all rows.
fn run_rows(rt: &(impl Abort + AllocGlobal)) -> Result<RecordEnv> {
    let mut env = RecordEnv::new(rt.alloc());
    for row in &ROWS {
        assert_row(rt, &mut env, row)?;
    }
    Ok(env)
}

fn assert_shown(
    rt: &(impl Abort + AllocGlobal),
    env: &RecordEnv,
    moment: u64,
    side: bool,
    files: &str,
) -> Result<()> {
    let found = shown(env, rt.alloc(), moment, side)?;
    assert!(rt;
        found.as_slice() == files.as_bytes(),
        "{files:?} at {moment}"
    );
    Ok(())
}

/// Asserts a row's files before its call at `moment`, which are those inside the call on either
/// side, and after it.
fn assert_moments(
    rt: &(impl Abort + AllocGlobal),
    env: &RecordEnv,
    row: &Row,
    moment: u64,
) -> Result<()> {
    let (_, _, _, before, after, now) = row;
    let inside = moment.saturating_add(1);
    assert_shown(rt, env, inside, false, before)?;
    assert_shown(rt, env, inside, true, after)?;
    let end = moment.saturating_add(2);
    assert_shown(rt, env, end, false, now)?;
    assert_shown(rt, env, end, true, now)
}

#[test]
fn each_moment_is_observed(rt: HostRuntime) -> Result<()> {
    let env = run_rows(&rt)?;
    assert!(rt; env.moment() == 48);
    for (row, moment) in ROWS.iter().zip((0..48).step_by(2)) {
        assert_moments(&rt, &env, row, moment)?;
    }
    Ok(())
}

const EACH_CALL: [Call; 18] = [
    Call::OpenWritable("a"),
    Call::OpenAppendable("b"),
    Call::OpenSequential("a"),
    Call::OpenRandomAccess("a"),
    Call::Append("a", "xyz"),
    Call::Sync("a"),
    Call::Read("a"),
    Call::ReadAt("a"),
    Call::Exists("a"),
    Call::Children("db"),
    Call::SizeOf("a"),
    Call::Rename("a", "c"),
    Call::Delete("b"),
    Call::Mkdir("db"),
    Call::Rmdir("db"),
    Call::Lock("l"),
    Call::Unlock("l"),
    Call::Micros,
];

/// Asserts of a run of all calls that the chosen one and no other returns `IOError`, and that each
/// call is counted.
fn assert_fails(rt: &(impl Abort + AllocGlobal), chosen: usize, done: bool) -> Result<()> {
    let mut env = RecordEnv::new(rt.alloc());
    env.fail(u64::try_from(chosen).unwrap_or(0).saturating_add(1), done);
    for (i, call) in EACH_CALL.iter().enumerate() {
        let code = code_after(&mut env, rt.alloc(), *call)?;
        assert!(rt;
            (code == IOError) == (i == chosen),
            "call {i} of {chosen}, done: {done}"
        );
    }
    assert!(rt; env.moment() == 36);
    Ok(())
}

#[test]
fn each_call_fails_where_it_is_chosen(rt: HostRuntime) -> Result<()> {
    for chosen in 0..EACH_CALL.len() {
        assert_fails(&rt, chosen, false)?;
        assert_fails(&rt, chosen, true)?;
    }
    Ok(())
}

const TORN: [Call; 5] = [
    Call::OpenWritable("a"),
    Call::Append("a", "1"),
    Call::Sync("a"),
    Call::Append("a", "23"),
    Call::Lock("l"),
];

/// One file with a kept byte and two that were appended since, in a run of five calls.
fn torn(alloc: Global) -> Result<RecordEnv> {
    let mut env = RecordEnv::new(alloc);
    run_all(&mut env, alloc, &TORN)?;
    Ok(env)
}

/// Moments, the tail of the file that a crash then picks, and the files that it leaves.
const LEFT: [(u64, &str, &str); 3] = [(7, "x", "a=1x "), (8, "23", "a=123 "), (10, "", "a=1 l= ")];

/// Makes two calls on a disk that a crash left. Returns what a crash then leaves.
fn go_on(left: &mut RecordEnv, alloc: Global) -> Result<RecordEnv> {
    left.lock("l")?;
    run(left, alloc, Call::Append("a", "4"))?;
    left.disk_at(alloc, 4, &no_tails(alloc, false))
}

/// Whether a disk that a crash left goes on from moment 0, and a later crash keeps its kept bytes.
fn goes_on(left: &mut RecordEnv, alloc: Global) -> Result<bool> {
    let crashed = go_on(left, alloc)?;
    Ok(left.moment() == 4 && shown(&crashed, alloc, 0, false)?.starts_with(b"a=1"))
}

#[test]
fn a_crash_leaves_a_disk_to_go_on_from(rt: HostRuntime) -> Result<()> {
    let env = torn(rt.alloc())?;
    for (moment, tail, files) in &LEFT {
        let pick = pick_of(rt.alloc(), &[("a", *tail)])?;
        let mut left = env.disk_at(rt.alloc(), *moment, &pick)?;
        assert!(rt; left.moment() == 0);
        assert_shown(&rt, &left, 0, false, files)?;
        assert!(rt; goes_on(&mut left, rt.alloc())?);
    }
    Ok(())
}

/// Moments, and names and tails of which a crash then leaves none.
const NOT_LEFT: [(u64, &[(&str, &str)]); 5] = [
    (11, &[]),
    (10, &[("a", "234")]),
    (6, &[("a", "2")]),
    (10, &[("b", "")]),
    (10, &[("a", ""), ("a", "2")]),
];

/// Whether no crash at this moment leaves these tails.
fn is_never_left(
    env: &RecordEnv,
    alloc: Global,
    moment: u64,
    tails: &[(&str, &str)],
) -> Result<bool> {
    let pick = pick_of(alloc, tails)?;
    failed_with(env.disk_at(alloc, moment, &pick), InvalidArgument)
}

fn assert_never_left(rt: &(impl Abort + AllocGlobal), env: &RecordEnv) -> Result<()> {
    for (moment, tails) in &NOT_LEFT {
        assert!(rt;
            is_never_left(env, rt.alloc(), *moment, tails)?,
            "{tails:?} at {moment}"
        );
    }
    Ok(())
}

#[test]
fn a_crash_leaves_no_other(rt: HostRuntime) -> Result<()> {
    let env = torn(rt.alloc())?;
    assert_never_left(&rt, &env)
}

#[test]
fn tails_end_with_the_last_moment(rt: HostRuntime) -> Result<()> {
    let env = torn(rt.alloc())?;
    let answer = env.tails(rt.alloc(), 11, false);
    assert!(rt; failed_with(answer, InvalidArgument)?);
    Ok(())
}

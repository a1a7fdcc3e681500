//! Which sync follows which change, and what is made up for where a sync fails.
use super::calls::{Call, shown};
use super::watched::{Log, Watched};
use leveldb_base::error::Result;
use leveldb_base::error::StatusCode::{self, IOError, OK};
use leveldb_disks::disk_env::PosixDiskEnv;
use leveldb_env::env::Env;

const A: &str = "disk_tests_syncs/a";

const B: &str = "disk_tests_syncs/b";

const C: &str = "disk_tests_syncs/c";

const INNER: &str = "disk_tests_syncs/in";

const INNER_C: &str = "disk_tests_syncs/in/c";

const LOCK: &str = "disk_tests_syncs/l";

const OWED_A: &str = "disk_tests_owed/a";

const OWED_B: &str = "disk_tests_owed/b";

const OWED_INNER: &str = "disk_tests_owed/in";

const OWED_INNER_C: &str = "disk_tests_owed/in/c";

const OWED_LOCK: &str = "disk_tests_owed/l";

const PAYS: &str = "disk_tests_pays";

const PAYS_A: &str = "disk_tests_pays/a";

const PAYS_B: &str = "disk_tests_pays/b";

const PAYS_INNER: &str = "disk_tests_pays/in";

const SHORT: &str = "disk_tests_short/a";

/// A call, and what it does, in a folder that is empty first. While a lock in it is held a file that
/// is there is opened without a sync of the folder.
const CALLS: [(Call<'static>, &str); 18] = [
    (
        Call::Append(A, b"x"),
        "create disk_tests_syncs/a|sync disk_tests_syncs/|write disk_tests_syncs/a|",
    ),
    (
        Call::Append(A, b"x"),
        "sync disk_tests_syncs/|write disk_tests_syncs/a|",
    ),
    (
        Call::Lock(LOCK),
        "create disk_tests_syncs/l|lock disk_tests_syncs/l|sync disk_tests_syncs/|",
    ),
    (Call::Append(A, b"x"), "write disk_tests_syncs/a|"),
    (
        Call::AppendAndSync(A, b"x"),
        "write disk_tests_syncs/a|sync bytes of disk_tests_syncs/a|",
    ),
    (
        Call::Replace(A, b"x"),
        "empty disk_tests_syncs/a|sync disk_tests_syncs/a|write disk_tests_syncs/a|",
    ),
    (
        Call::Replace(B, b""),
        "create disk_tests_syncs/b|sync disk_tests_syncs/|",
    ),
    (Call::Replace(B, b""), ""),
    (Call::Read(A), ""),
    (Call::ReadAt(A, 0), ""),
    (Call::Exists(B), ""),
    (Call::Children("disk_tests_syncs"), ""),
    (
        Call::Rename(A, C),
        "rename disk_tests_syncs/a|sync disk_tests_syncs/|",
    ),
    (
        Call::Mkdir(INNER),
        "sync .|make disk_tests_syncs/in|sync disk_tests_syncs/|",
    ),
    (
        Call::Rename(C, INNER_C),
        "rename disk_tests_syncs/c|sync disk_tests_syncs/in/|sync disk_tests_syncs/|",
    ),
    (
        Call::Delete(B),
        "delete disk_tests_syncs/b|sync disk_tests_syncs/|",
    ),
    (Call::Unlock(LOCK), "unlock disk_tests_syncs/l|"),
    (
        Call::Clear(INNER),
        "remove disk_tests_syncs/in|sync disk_tests_syncs/|sync .|make disk_tests_syncs/in|\
sync disk_tests_syncs/|",
    ),
];

/// The same with which of the calls of the system fails, and the code. What is owed for a sync that
/// failed is made up for by the next call that takes a name.
const FAILURES: [(usize, Call<'static>, &str, StatusCode); 26] = [
    (
        2,
        Call::Append(OWED_A, b"x"),
        "create disk_tests_owed/a|sync disk_tests_owed/|",
        IOError,
    ),
    (1, Call::Exists(OWED_A), "sync disk_tests_owed/|", IOError),
    (0, Call::Exists(OWED_A), "sync disk_tests_owed/|", OK),
    (0, Call::Exists(OWED_A), "", OK),
    // nothing is owed for a change that failed
    (
        1,
        Call::Rename(OWED_A, OWED_B),
        "rename disk_tests_owed/a|",
        IOError,
    ),
    (
        1,
        Call::Delete(OWED_A),
        "delete disk_tests_owed/a|",
        IOError,
    ),
    (
        0,
        Call::Mkdir(OWED_INNER),
        "sync .|make disk_tests_owed/in|sync disk_tests_owed/|",
        OK,
    ),
    // two folders are synced, the one where the file is found first
    (
        2,
        Call::Rename(OWED_A, OWED_INNER_C),
        "rename disk_tests_owed/a|sync disk_tests_owed/in/|sync disk_tests_owed/|",
        IOError,
    ),
    (
        0,
        Call::SizeOf(OWED_INNER_C),
        "sync disk_tests_owed/in/|",
        OK,
    ),
    (
        3,
        Call::Rename(OWED_INNER_C, OWED_A),
        "rename disk_tests_owed/in/c|sync disk_tests_owed/|sync disk_tests_owed/in/|",
        IOError,
    ),
    (0, Call::Read(OWED_A), "sync disk_tests_owed/in/|", OK),
    (
        2,
        Call::Delete(OWED_A),
        "delete disk_tests_owed/a|sync disk_tests_owed/|",
        IOError,
    ),
    (0, Call::Exists(OWED_A), "sync disk_tests_owed/|", OK),
    // a file that is emptied is synced itself
    (
        0,
        Call::Append(OWED_A, b"x"),
        "create disk_tests_owed/a|sync disk_tests_owed/|write disk_tests_owed/a|",
        OK,
    ),
    (
        3,
        Call::Replace(OWED_A, b"y"),
        "sync disk_tests_owed/|empty disk_tests_owed/a|sync disk_tests_owed/a|",
        IOError,
    ),
    (0, Call::SizeOf(OWED_A), "sync disk_tests_owed/a|", OK),
    // a file of which a sync failed is copied, the next time that it is opened
    (
        3,
        Call::AppendAndSync(OWED_A, b"z"),
        "sync disk_tests_owed/|write disk_tests_owed/a|sync bytes of disk_tests_owed/a|",
        IOError,
    ),
    (
        0,
        Call::Append(OWED_A, b"z"),
        "sync disk_tests_owed/|delete disk_tests_owed/a.dbtmp|create disk_tests_owed/a.dbtmp|\
write disk_tests_owed/a.dbtmp|sync disk_tests_owed/a.dbtmp|rename disk_tests_owed/a.dbtmp|\
sync disk_tests_owed/|write disk_tests_owed/a.dbtmp|",
        OK,
    ),
    (
        0,
        Call::Append(OWED_A, b"z"),
        "sync disk_tests_owed/|write disk_tests_owed/a|",
        OK,
    ),
    // a lock that failed isn't held, and one whose freeing failed still is
    (
        2,
        Call::Lock(OWED_LOCK),
        "create disk_tests_owed/l|lock disk_tests_owed/l|sync disk_tests_owed/|",
        IOError,
    ),
    (0, Call::Unlock(OWED_LOCK), "", StatusCode::LockError),
    (
        2,
        Call::Lock(OWED_LOCK),
        "lock disk_tests_owed/l|sync disk_tests_owed/|",
        IOError,
    ),
    (
        0,
        Call::Lock(OWED_LOCK),
        "sync disk_tests_owed/|lock disk_tests_owed/l|sync disk_tests_owed/|",
        OK,
    ),
    (
        1,
        Call::Unlock(OWED_LOCK),
        "unlock disk_tests_owed/l|",
        IOError,
    ),
    (0, Call::Lock(OWED_LOCK), "", StatusCode::LockError),
    (0, Call::Unlock(OWED_LOCK), "unlock disk_tests_owed/l|", OK),
];

/// Whether the call does this and has the code, where this call of the system fails.
fn does<E: Env>(
    env: &mut E,
    log: &Log,
    fails_in: usize,
    call: Call<'static>,
    words: &str,
    code: StatusCode,
) -> Result<bool> {
    log.fails_in.set(fails_in);
    let (_, found) = shown(env, log.alloc, call)?;
    log.fails_in.set(0);
    Ok(log.take().as_str() == words && found == code)
}

/// The index of the first call that does something else, if one does.
fn first_other_call<E: Env>(env: &mut E, log: &Log) -> Result<Option<usize>> {
    for (at, (call, words)) in CALLS.iter().enumerate() {
        if !does(env, log, 0, *call, words, OK)? {
            return Ok(Some(at));
        }
    }
    Ok(None)
}

fn first_other_failure<E: Env>(env: &mut E, log: &Log) -> Result<Option<usize>> {
    for (at, (fails_in, call, words, code)) in FAILURES.iter().enumerate() {
        if !does(env, log, *fails_in, *call, words, *code)? {
            return Ok(Some(at));
        }
    }
    Ok(None)
}

/// Each change of a name is followed by a sync of its folder, and each file that is emptied by one
/// of its own.
#[test]
fn syncs_follow_changes(rt: HostRuntime) -> Result<()> {
    let log = Log::new(rt.alloc());
    let mut env = PosixDiskEnv::new(Watched {
        system: &rt,
        log: &log,
    });
    env.rmdir("disk_tests_syncs")?;
    env.mkdir("disk_tests_syncs")?;
    log.take();
    let other = first_other_call(&mut env, &log)?;
    assert!(rt; other == None, "call {other:?}");
    env.rmdir("disk_tests_syncs")
}

#[test]
fn failed_syncs_are_made_up_for(rt: HostRuntime) -> Result<()> {
    let log = Log::new(rt.alloc());
    let mut env = PosixDiskEnv::new(Watched {
        system: &rt,
        log: &log,
    });
    env.rmdir("disk_tests_owed")?;
    env.mkdir("disk_tests_owed")?;
    log.take();
    let other = first_other_failure(&mut env, &log)?;
    assert!(rt; other == None, "call {other:?}");
    env.rmdir("disk_tests_owed")
}

/// Calls with a name; each makes up for the sync that failed before it.
const PAYING: [Call<'static>; 12] = [
    Call::Read(PAYS_A),
    Call::ReadAt(PAYS_A, 0),
    Call::Replace(PAYS_A, b"x"),
    Call::Append(PAYS_A, b"x"),
    Call::Exists(PAYS_A),
    Call::Children(PAYS),
    Call::SizeOf(PAYS_A),
    Call::Rename(PAYS_A, PAYS_B),
    Call::Mkdir(PAYS),
    Call::Clear(PAYS_INNER),
    Call::Lock(PAYS_A),
    Call::Delete(PAYS_A),
];

/// The index of the first call that does something else first, if one does. Before each a file is
/// created, and the sync of its folder fails.
fn first_that_owes<E: Env>(env: &mut E, log: &Log) -> Result<Option<usize>> {
    for (at, call) in PAYING.iter().enumerate() {
        env.rmdir(PAYS)?;
        env.mkdir(PAYS)?;
        log.fails_in.set(2);
        let failed = env.open_writable_file(PAYS_A).is_err();
        log.take();
        shown(env, log.alloc, *call)?;
        if !failed || !log.take().as_str().starts_with("sync disk_tests_pays/|") {
            return Ok(Some(at));
        }
    }
    Ok(None)
}

#[test]
fn each_call_makes_up_for_a_failed_sync(rt: HostRuntime) -> Result<()> {
    let log = Log::new(rt.alloc());
    let mut env = PosixDiskEnv::new(Watched {
        system: &rt,
        log: &log,
    });
    let other = first_that_owes(&mut env, &log)?;
    assert!(rt; other == None, "call {other:?}");
    env.rmdir(PAYS)
}

/// What a file has once ten bytes were appended to it by writes that take few bytes, and the code.
fn append_ten<E: Env>(
    env: &mut E,
    log: &Log,
    piece: usize,
    room: usize,
) -> Result<(Vec<u8>, StatusCode)> {
    env.open_writable_file(SHORT)?;
    log.piece.set(piece);
    log.room.set(room);
    let (_, code) = shown(env, log.alloc, Call::Append(SHORT, b"0123456789"))?;
    log.piece.set(usize::MAX);
    log.room.set(usize::MAX);
    let (bytes, _) = shown(env, log.alloc, Call::Read(SHORT))?;
    Ok((bytes, code))
}

/// A write that takes some of the bytes is followed by another; one that takes none is an error.
#[test]
fn short_writes_go_on(rt: HostRuntime) -> Result<()> {
    let log = Log::new(rt.alloc());
    let mut env = PosixDiskEnv::new(Watched {
        system: &rt,
        log: &log,
    });
    env.mkdir("disk_tests_short")?;
    for piece in 1..12 {
        let (bytes, code) = append_ten(&mut env, &log, piece, usize::MAX)?;
        assert!(rt; bytes.as_slice() == b"0123456789".as_slice() && code == OK);
    }
    for room in 0..10 {
        let (bytes, code) = append_ten(&mut env, &log, 3, room)?;
        assert!(rt; bytes.as_slice() == &b"0123456789".as_slice()[..room] && code == IOError);
    }
    env.rmdir("disk_tests_short")
}

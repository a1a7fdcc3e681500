//! Stores in memory: each call once, devices that fail, and crashes.
use super::stores::one_byte;
use leveldb_base::cmp::DefaultCmp;
use leveldb_base::error::{Result, StatusCode};
use leveldb_disks::mem_env::{MemEnv, Pick, RecordEnv};
use leveldb_env::env::Env;
use leveldb_env::filter::BloomPolicy;
use leveldb_env::options::Options;
use leveldb_mem::write_batch::WriteBatch;
use rusty_leveldb::db_impl::{DB, Engine, Store};
use std::alloc::Global;
use std::process::Abort;
use support::failed_with;

/// The first log.
const LOG: &str = "db/000003.log";

type Opened<'a, E> = DB<'a, E, DefaultCmp, BloomPolicy>;

/// The one byte of the key's value, `-` for none, `?` for another value.
fn byte_at<E: Env>(db: &mut Opened<'_, E>, key: &[u8]) -> Result<u8> {
    Ok(one_byte(db.get(key)?))
}

/// The bytes of the keys a, b, c and d.
fn bytes_in<E: Env>(db: &mut Opened<'_, E>) -> Result<[u8; 4]> {
    let a = byte_at(db, b"a")?;
    let b = byte_at(db, b"b")?;
    let c = byte_at(db, b"c")?;
    let d = byte_at(db, b"d")?;
    Ok([a, b, c, d])
}

/// A batch of one pair.
fn pair(alloc: Global, key: &[u8], value: &[u8]) -> Result<WriteBatch> {
    let mut batch = WriteBatch::new(alloc)?;
    batch.put(key, value)?;
    Ok(batch)
}

/// Of no file a tail.
fn no_tail(alloc: Global) -> Pick {
    Pick {
        tails: Vec::new(alloc),
        after: false,
    }
}

/// Of the log this tail.
fn pick(alloc: Global, tail: &[u8]) -> Result<Pick> {
    let mut tails = Vec::new(alloc);
    tails.push((String::from_str(alloc, LOG)?, Vec::from_slice(alloc, tail)?))?;
    Ok(Pick {
        tails,
        after: false,
    })
}

fn open<E: Env>(alloc: Global, env: &mut E) -> Result<Opened<'_, E>> {
    DB::open(alloc, "db", env, Options::default())
}

/// Whether an opening fails with this code.
fn opening_fails<E: Env>(alloc: Global, env: &mut E, name: &str, code: StatusCode) -> Result<bool> {
    failed_with(DB::open(alloc, name, env, Options::default()), code)
}

fn unlock_fails<E: Env>(env: &mut E) -> Result<bool> {
    failed_with(env.unlock("db/LOCK"), StatusCode::LockError)
}

/// The four bytes that a store shows which is opened, and then closed.
fn found_again<E: Env>(alloc: Global, env: &mut E) -> Result<[u8; 4]> {
    let mut db = open(alloc, env)?;
    let found = bytes_in(&mut db)?;
    db.close()?;
    Ok(found)
}

/// A call of a store, or what it is to show.
#[derive(Clone, Copy)]
enum Act {
    Put(&'static [u8], &'static [u8]),
    Delete(&'static [u8]),
    /// Writes a synced batch of one pair.
    Write(&'static [u8], &'static [u8]),
    Get(&'static [u8]),
    Flush,
    Close,
    /// The bytes of the keys a, b, c and d are these.
    Shows(&'static [u8; 4]),
}

/// An act, and the code that it returns.
type Row = (Act, StatusCode);

/// Whether this is the answer's code. Out of memory is passed on.
fn has_code(answer: Result<()>, code: StatusCode) -> Result<bool> {
    match answer {
        Ok(()) => Ok(code == StatusCode::OK),
        Err(status) if status.code == StatusCode::OutOfMemory => Err(status),
        Err(status) => Ok(status.code == code),
    }
}

fn call<E: Env>(alloc: Global, db: &mut Opened<'_, E>, act: Act) -> Result<()> {
    match act {
        Act::Put(key, value) => db.put(key, value),
        Act::Delete(key) => db.delete(key),
        Act::Write(key, value) => db.write(pair(alloc, key, value)?, true),
        Act::Get(key) => {
            db.get(key)?;
            Ok(())
        }
        Act::Flush => db.flush(),
        Act::Close => db.close(),
        Act::Shows(_) => Ok(()),
    }
}

fn is_right<E: Env>(alloc: Global, db: &mut Opened<'_, E>, row: &Row) -> Result<bool> {
    match row.0 {
        Act::Shows(wanted) => Ok(bytes_in(db)? == *wanted),
        act => has_code(call(alloc, db, act), row.1),
    }
}

/// Calls and asks all this, one after another.
fn play<E: Env>(
    rt: &impl Abort,
    alloc: Global,
    db: &mut Opened<'_, E>,
    rows: &[Row],
) -> Result<()> {
    for (at, row) in rows.iter().enumerate() {
        assert!(rt; is_right(alloc, db, row)?, "row {at}");
    }
    Ok(())
}

const EACH_CALL: &[Row] = &[
    (Act::Put(b"a", b"1"), StatusCode::OK),
    (Act::Put(b"b", b"2"), StatusCode::OK),
    (Act::Delete(b"a"), StatusCode::OK),
    (Act::Write(b"c", b"3"), StatusCode::OK),
    (Act::Flush, StatusCode::OK),
    (Act::Shows(b"-23-"), StatusCode::OK),
    (Act::Close, StatusCode::OK),
    (Act::Close, StatusCode::InvalidArgument),
    (Act::Put(b"d", b"4"), StatusCode::InvalidArgument),
    (Act::Get(b"b"), StatusCode::InvalidArgument),
];

#[test]
fn each_call_once(rt: HostRuntime) -> Result<()> {
    let alloc = rt.alloc();
    let mut env = MemEnv::new(alloc);
    let mut db = open(alloc, &mut env)?;
    play(&rt, alloc, &mut db, EACH_CALL)?;
    db.abandon()?;
    assert!(rt; found_again(alloc, &mut env)? == *b"-23-");
    Ok(())
}

#[test]
fn a_store_that_is_dropped_keeps_its_lock(rt: HostRuntime) -> Result<()> {
    let alloc = rt.alloc();
    let mut env = MemEnv::new(alloc);
    drop(open(alloc, &mut env)?);
    assert!(rt; opening_fails(alloc, &mut env, "db", StatusCode::LockError)?);
    env.unlock("db/LOCK")?;
    let db = open(alloc, &mut env)?;
    db.abandon()?;
    assert!(rt; unlock_fails(&mut env)?);
    Ok(())
}

#[test]
fn openings_are_refused(rt: HostRuntime) -> Result<()> {
    let alloc = rt.alloc();
    let mut env = MemEnv::new(alloc);
    assert!(rt; opening_fails(alloc, &mut env, "", StatusCode::InvalidArgument)?);
    let mut options = Options::default();
    options.create_if_missing = false;
    let missing = DB::open(alloc, "db", &mut env, options);
    assert!(rt; failed_with(missing, StatusCode::InvalidArgument)?);
    assert!(rt; unlock_fails(&mut env)?);
    Ok(())
}

/// The append of b fails: the store is broken, and keeps its map until it is opened again.
const BROKEN: &[Row] = &[
    (Act::Put(b"b", b"2"), StatusCode::IOError),
    (Act::Put(b"c", b"3"), StatusCode::IOError),
    (Act::Flush, StatusCode::IOError),
    (Act::Close, StatusCode::IOError),
    (Act::Shows(b"1---"), StatusCode::OK),
];

/// An engine that was opened on a device whose nth call from now on fails, with its change made or
/// not.
fn open_to_fail(
    alloc: Global,
    env: &mut RecordEnv,
    nth: u64,
    done: bool,
) -> Result<Engine<RecordEnv, DefaultCmp, BloomPolicy>> {
    let engine = Engine::open(alloc, "db", env, Options::default())?;
    env.fail(nth, done);
    Ok(engine)
}

fn abandon<E: Env>(db: Opened<'_, E>) -> Result<()> {
    db.abandon()
}

fn fail_an_append(rt: &impl Abort, alloc: Global, env: &mut RecordEnv, done: bool) -> Result<()> {
    let engine = open_to_fail(alloc, env, 1, done)?;
    let mut db = Store::around(env, engine);
    play(rt, alloc, &mut db, BROKEN)?;
    abandon(db)
}

/// A store with 1 for a.
fn put_one<E: Env>(alloc: Global, env: &mut E) -> Result<()> {
    let mut db = open(alloc, env)?;
    db.put(b"a", b"1")?;
    db.abandon()
}

#[test]
fn a_failed_write_breaks_the_store(rt: HostRuntime) -> Result<()> {
    let alloc = rt.alloc();
    let mut env = RecordEnv::new(alloc);
    put_one(alloc, &mut env)?;
    fail_an_append(&rt, alloc, &mut env, false)?;
    assert!(rt; found_again(alloc, &mut env)? == *b"1---");
    fail_an_append(&rt, alloc, &mut env, true)?;
    assert!(rt; found_again(alloc, &mut env)? == *b"12--");
    Ok(())
}

/// The `nth` call of the device in a close fails: the store is broken, and has its lock until
/// `abandon` gives that back.
fn fail_a_close(rt: &impl Abort, alloc: Global, env: &mut RecordEnv, nth: u64) -> Result<()> {
    let mut engine = open_to_fail(alloc, env, nth, false)?;
    assert!(rt; failed_with(engine.close(env), StatusCode::IOError)?);
    assert!(rt; failed_with(engine.put(env, b"a", b"1"), StatusCode::IOError)?);
    assert!(rt; failed_with(env.lock("db/LOCK"), StatusCode::LockError)?);
    env.fail(1, false);
    assert!(rt; failed_with(engine.abandon(env), StatusCode::IOError)?);
    env.unlock("db/LOCK")
}

/// First the sync fails, and then the return of the lock.
#[test]
fn a_failed_close_breaks_the_store(rt: HostRuntime) -> Result<()> {
    let alloc = rt.alloc();
    let mut env = RecordEnv::new(alloc);
    fail_a_close(&rt, alloc, &mut env, 1)?;
    fail_a_close(&rt, alloc, &mut env, 2)
}

/// What is found after a crash with this tail of the log, and with a synced d after a second crash.
fn crash_and_go_on(alloc: Global, env: &MemEnv, tail: &[u8]) -> Result<([u8; 4], [u8; 4])> {
    let mut left = env.crashed(alloc, &pick(alloc, tail)?)?;
    let found = write_after_a_crash(alloc, &mut left)?;
    let mut later = left.crashed(alloc, &no_tail(alloc))?;
    Ok((found, found_again(alloc, &mut later)?))
}

fn write_after_a_crash(alloc: Global, left: &mut MemEnv) -> Result<[u8; 4]> {
    let mut db = open(alloc, left)?;
    let found = bytes_in(&mut db)?;
    db.write(pair(alloc, b"d", b"4")?, true)?;
    Ok(found)
}

/// The disk after three records of 24 bytes each, of which the first two are durable.
fn after_three_records(alloc: Global) -> Result<MemEnv> {
    let mut env = MemEnv::new(alloc);
    let mut db = open(alloc, &mut env)?;
    db.put(b"a", b"1")?;
    db.write(pair(alloc, b"b", b"2")?, true)?;
    db.put(b"c", b"3")?;
    drop(db);
    Ok(env)
}

/// The third record, whose last byte is the value.
fn third_record(rt: &impl Abort, alloc: Global, env: &mut MemEnv) -> Result<[u8; 24]> {
    assert!(rt; env.size_of(LOG)? == 72);
    assert!(rt; env.crashed(alloc, &no_tail(alloc))?.size_of(LOG)? == 48);
    let mut file = env.open_random_access_file(LOG)?;
    let mut tail = [0; 24];
    assert!(rt; env.read_at(&mut file, 48, &mut tail)? == 24);
    assert!(rt; tail[23] == b'3');
    Ok(tail)
}

/// A crash leaves none of the third record, or all of it, or with its last byte raised, which its
/// checksum shows.
#[test]
fn crashes_keep_a_prefix(rt: HostRuntime) -> Result<()> {
    let mut env = after_three_records(rt.alloc())?;
    let mut tail = third_record(&rt, rt.alloc(), &mut env)?;
    assert!(rt; crash_and_go_on(rt.alloc(), &env, b"")? == (*b"12--", *b"12-4"));
    assert!(rt; crash_and_go_on(rt.alloc(), &env, &tail)? == (*b"123-", *b"1234"));
    tail[23] = b'4';
    assert!(rt; crash_and_go_on(rt.alloc(), &env, &tail)? == (*b"12--", *b"12-4"));
    Ok(())
}

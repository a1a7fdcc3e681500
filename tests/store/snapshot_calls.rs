//! Snapshots: what is read at them, and those that aren't held.
use super::stores::{DefaultDB, DefaultEngine, buffered, opened, opened_db};
use leveldb_base::error::{Result, StatusCode};
use leveldb_env::mem_env::MemEnv;
use rusty_leveldb::{Options, Snapshot};
use std::alloc::Global;
use std::process::Abort;

type Store<'a> = DefaultDB<'a, MemEnv>;

/// The value of `k` at a snapshot, or `-`; or `!` where that is `InvalidArgument`.
fn seen_at(engine: &mut DefaultEngine<MemEnv>, env: &mut MemEnv, snapshot: Snapshot) -> Result<u8> {
    match engine.get_at(env, snapshot, b"k") {
        Ok(Some(value)) => Ok(value.as_slice().first().copied().unwrap_or(b'?')),
        Ok(None) => Ok(b'-'),
        Err(status) if status.code == StatusCode::InvalidArgument => Ok(b'!'),
        Err(status) => Err(status),
    }
}

/// Whether this is `InvalidArgument`.
fn is_refused(answer: Result<()>) -> bool {
    match answer {
        Ok(()) => false,
        Err(status) => status.code == StatusCode::InvalidArgument,
    }
}

/// What `k` is at each of these snapshots.
fn all_seen(
    rt: &impl Abort,
    engine: &mut DefaultEngine<MemEnv>,
    env: &mut MemEnv,
    snapshots: &[Snapshot; 3],
    wanted: &[u8; 3],
) -> Result<()> {
    for (snapshot, value) in snapshots.iter().zip(wanted) {
        assert_eq!(rt; seen_at(engine, env, *snapshot)?, *value);
    }
    Ok(())
}

/// Snapshots before a put, after it, and after a deletion, that two more puts follow.
fn three_snapshots(engine: &mut DefaultEngine<MemEnv>, env: &mut MemEnv) -> Result<[Snapshot; 3]> {
    let first = engine.get_snapshot()?;
    engine.put(env, b"k", b"1")?;
    let second = engine.get_snapshot()?;
    engine.delete(env, b"k")?;
    let third = engine.get_snapshot()?;
    engine.put(env, b"k", b"2")?;
    engine.put(env, b"l", b"3")?;
    Ok([first, second, third])
}

/// Each snapshot sees the value as of its own time until it is released, or the store is closed.
fn see_until_released(
    rt: &impl Abort,
    engine: &mut DefaultEngine<MemEnv>,
    env: &mut MemEnv,
) -> Result<()> {
    let all = three_snapshots(engine, env)?;
    all_seen(rt, engine, env, &all, b"-1-")?;
    engine.release_snapshot(all[1])?;
    all_seen(rt, engine, env, &all, b"-!-")?;
    assert!(rt; is_refused(engine.release_snapshot(all[1])));
    engine.close(env)?;
    all_seen(rt, engine, env, &all, b"!!!")?;
    assert!(rt; is_refused(engine.release_snapshot(all[0])) && engine.get_snapshot().is_err());
    Ok(())
}

/// Snapshots of a store with a memtable of so many bytes.
fn see_in_a_store(rt: &impl Abort, alloc: Global, size: usize) -> Result<()> {
    let mut env = MemEnv::new(alloc);
    let mut engine = opened(alloc, &mut env, buffered(size))?;
    see_until_released(rt, &mut engine, &mut env)
}

/// In memory and in tables.
#[test]
fn values_over_time(rt: HostRuntime) -> Result<()> {
    see_in_a_store(&rt, rt.alloc(), 1)?;
    see_in_a_store(&rt, rt.alloc(), 1 << 20)
}

/// A snapshot between two puts of k, and whether the first is found at it, of a store that is
/// closed then.
fn closed_after_a_snapshot(db: &mut Store) -> Result<(Snapshot, bool)> {
    db.put(b"k", b"1")?;
    let snapshot = db.get_snapshot()?;
    db.put(b"k", b"2")?;
    let is_seen = match db.get_at(&snapshot, b"k")? {
        Some(value) => value.as_slice() == b"1".as_slice(),
        None => false,
    };
    db.close()?;
    Ok((snapshot, is_seen))
}

/// A snapshot of an opening isn't held in the next one.
#[test]
fn opened_again(rt: HostRuntime) -> Result<()> {
    let mut env = MemEnv::new(rt.alloc());
    let mut db = opened_db(rt.alloc(), &mut env, Options::default())?;
    let (snapshot, is_seen) = closed_after_a_snapshot(&mut db)?;
    assert!(rt; is_seen);
    drop(db);
    let mut db = opened_db(rt.alloc(), &mut env, Options::default())?;
    assert!(rt; db.get_at(&snapshot, b"k").is_err());
    db.close()
}

/// How many snapshots are held in the test of many.
const MANY: usize = 17;

/// Puts `k` 65 times for each of `MANY` snapshots, the last of which is before the last of these
/// puts: past number 1000.
fn hold_many(
    alloc: Global,
    engine: &mut DefaultEngine<MemEnv>,
    env: &mut MemEnv,
) -> Result<Vec<Snapshot>> {
    let mut held = Vec::new(alloc);
    for round in 0..MANY {
        for _ in 0..64 {
            engine.put(env, b"k", b"-")?;
        }
        engine.put(env, b"k", &[b'a' + round as u8])?;
        held.push(engine.get_snapshot()?)?;
    }
    Ok(held)
}

/// Where there is memory, none of many snapshots is refused, nor a write past number 1000.
#[test]
fn many_snapshots_and_numbers(rt: HostRuntime) -> Result<()> {
    let alloc = rt.alloc();
    let mut env = MemEnv::new(alloc);
    let mut engine = opened(alloc, &mut env, buffered(4096))?;
    let held = hold_many(alloc, &mut engine, &mut env)?;
    assert_eq!(rt; held.len(), MANY);
    for (round, snapshot) in held.iter().enumerate() {
        assert_eq!(rt;
            seen_at(&mut engine, &mut env, *snapshot)?,
            b'a' + round as u8
        );
        engine.release_snapshot(*snapshot)?;
    }
    engine.close(&mut env)
}

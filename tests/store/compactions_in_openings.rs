//! The compaction that an opening does at its end, where the score of a level asks for one.
use super::stores::{
    DefaultOptions, STORE, buffered, count_tables, fail_in_turn, left_at, one_byte, opened, reusing,
};
use leveldb_base::cmp::DefaultCmp;
use leveldb_base::error::{Result, StatusCode};
use leveldb_disks::mem_env::RecordEnv;
use leveldb_env::env::Env;
use leveldb_env::options::Options;
use slow_store::read_store;
use std::alloc::Global;
use std::process::Abort;
use support::{Lines, Raised, answered, damage_file};

/// A disk with a store of one key, of this many tables and one more, and its newest value in the
/// log.
fn left_with(alloc: Global, count: u8) -> Result<RecordEnv> {
    let mut env = RecordEnv::new(alloc);
    let mut engine = opened(alloc, &mut env, buffered(1))?;
    for value in 0..count + 2 {
        engine.put(&mut env, b"a", &[b'1' + value])?;
    }
    engine.abandon(&mut env)?;
    Ok(env)
}

/// Options with which an opening makes a table of the last log.
fn tabling() -> DefaultOptions {
    reusing(false, true)
}

/// The one byte of the key's value in a store that is opened for that.
fn byte_in(alloc: Global, env: &mut RecordEnv) -> Result<u8> {
    let mut engine = opened(alloc, env, tabling())?;
    let byte = one_byte(engine.get(env, b"a")?);
    engine.abandon(env)?;
    Ok(byte)
}

/// Whether the files are a store by its definition.
fn is_whole(alloc: Global, env: &mut RecordEnv) -> Result<bool> {
    let read = read_store(alloc, env, &DefaultCmp, STORE);
    Ok(answered(read)?.is_ok())
}

/// With the table of the log level 0 has four.
#[test]
fn four_tables_are_merged(rt: HostRuntime) -> Result<()> {
    let alloc = rt.alloc();
    for (count, left) in [(1, 3), (2, 4), (3, 5), (4, 2)] {
        let mut env = left_with(alloc, count)?;
        assert!(rt;
            count_tables(alloc, &mut env)? == usize::from(count) + 1,
            "{count}"
        );
        assert!(rt; byte_in(alloc, &mut env)? == b'2' + count);
        let tables = count_tables(alloc, &mut env)?;
        assert!(rt; tables == left, "{count}: {tables}");
        assert!(rt; is_whole(alloc, &mut env)?);
    }
    Ok(())
}

/// A store that is closed between its puts has a table of each log, where none is used on.
#[test]
fn many_openings(rt: HostRuntime) -> Result<()> {
    let alloc = rt.alloc();
    let mut env = RecordEnv::new(alloc);
    for step in 0..40 {
        let mut engine = opened(alloc, &mut env, Options::default())?;
        let value = b'0' + (step % 10) as u8;
        engine.put(&mut env, b"a", &[value])?;
        engine.close(&mut env)?;
        let tables = count_tables(alloc, &mut env)?;
        assert!(rt; tables <= 5, "step {step}: {tables}");
        assert!(rt; byte_in(alloc, &mut env)? == value, "step {step}");
    }
    assert!(rt; is_whole(alloc, &mut env)?);
    Ok(())
}

/// What an opening of a disk of four tables returns where its nth call fails, done or not: whether
/// it is Ok, or none where fewer calls are made. The value is found again, a refused store isn't
/// locked, and its files are a store.
fn opened_at(rt: &impl Abort, alloc: Global, nth: u64, done: bool) -> Result<Option<bool>> {
    let mut env = left_with(alloc, 4)?;
    let before = env.moment();
    env.fail(nth, done);
    let first = answered(opened(alloc, &mut env, tabling()))?;
    let calls = (env.moment() - before) / 2;
    env.fail(0, false);
    let is_ok = first.is_ok();
    match first {
        Ok(engine) => {
            let mut engine = engine;
            assert!(rt;
                one_byte(engine.get(&mut env, b"a")?) == b'6',
                "call {nth} {done}"
            );
            engine.put(&mut env, b"b", b"7")?;
            engine.abandon(&mut env)?;
        }
        Err(status) => {
            assert!(rt; status.code == StatusCode::IOError, "call {nth} {done}");
            env.lock("db/LOCK")?;
            env.unlock("db/LOCK")?;
        }
    }
    assert!(rt; is_whole(alloc, &mut env)?, "call {nth} {done}");
    assert!(rt; byte_in(alloc, &mut env)? == b'6', "call {nth} {done}");
    // One of them may be the other key's.
    let tables = count_tables(alloc, &mut env)?;
    assert!(rt; tables <= 3, "call {nth} {done}: {tables}");
    if calls < nth {
        return Ok(None);
    }
    Ok(Some(is_ok))
}

/// One of so many calls of the device fails, done or not. Returns how many openings were refused,
/// and how many went on.
pub fn fail_in_openings(
    rt: &impl Abort,
    alloc: Global,
    every: u64,
    done: bool,
) -> Result<(usize, usize)> {
    fail_in_turn(every, done, |nth| opened_at(rt, alloc, nth, done))
}

/// One of three calls of the device fails. Where the manifest's append or sync fails, the opening
/// is refused.
#[test]
fn one_of_the_calls_fails(rt: HostRuntime) -> Result<()> {
    for done in [false, true] {
        let (refused, goes_on) = fail_in_openings(&rt, rt.alloc(), 3, done)?;
        assert!(rt; refused > 1 && goes_on > 3, "{done}: {refused} {goes_on}");
    }
    Ok(())
}

/// A moment of an opening that compacts leaves a store with the value, if its log was synced, and
/// the next opening has compacted it.
fn crash_at(
    rt: &impl Abort,
    alloc: Global,
    env: &RecordEnv,
    moment: u64,
    whole: bool,
) -> Result<()> {
    let mut left = left_at(alloc, env, moment, whole)?;
    assert!(rt; is_whole(alloc, &mut left)?, "moment {moment} {whole}");
    let byte = byte_in(alloc, &mut left)?;
    assert!(rt; byte == b'6' || byte == b'5', "moment {moment} {whole}");
    // Without the log's value level 0 has three tables.
    let wanted = if byte == b'6' { 2 } else { 5 };
    let tables = count_tables(alloc, &mut left)?;
    assert!(rt; tables == wanted, "moment {moment} {whole}: {tables}");
    Ok(())
}

/// Crashes at one of so many moments of an opening.
pub fn crash_in_openings(rt: &impl Abort, alloc: Global, every: u64) -> Result<()> {
    let mut env = left_with(alloc, 4)?;
    let before = env.moment();
    let engine = opened(alloc, &mut env, tabling())?;
    let after = env.moment();
    engine.abandon(&mut env)?;
    assert!(rt; after - before > 40);
    for moment in before..=after {
        if moment % every == 0 {
            crash_at(rt, alloc, &env, moment, false)?;
            crash_at(rt, alloc, &env, moment, true)?;
        }
    }
    Ok(())
}

#[test]
fn crashes_at_one_of_three_moments(rt: HostRuntime) -> Result<()> {
    crash_in_openings(&rt, rt.alloc(), 3)
}

/// A store with a damaged table opens, tells a line, and reads what is readable.
#[test]
fn over_a_damaged_table(rt: HostRuntime) -> Result<()> {
    let alloc = rt.alloc();
    let mut env = left_with(alloc, 4)?;
    // The table of level 1.
    damage_file(alloc, &mut env, "000007.ldb", 0)?;
    let lines = Lines::new(alloc)?;
    let mut options = tabling();
    options.log = Some(lines.log(alloc, "")?);
    let mut engine = opened(alloc, &mut env, options)?;
    assert!(rt; lines.counts().0 == 1);
    assert!(rt; one_byte(engine.get(&mut env, b"a")?) == b'6');
    assert!(rt; count_tables(alloc, &mut env)? == 6);
    engine.put(&mut env, b"b", b"1")?;
    assert!(rt; one_byte(engine.get(&mut env, b"b")?) == b'1');
    engine.close(&mut env)
}

/// The same options with a compressor for new blocks.
fn raising(alloc: Global, options: DefaultOptions) -> Result<DefaultOptions> {
    let mut options = options;
    let raised = Box::new(alloc, Raised)?;
    options.compressor_list.set_with_id(alloc, 7, raised)?;
    options.compressor = 7;
    Ok(options)
}

/// A store whose blocks a compressor made opens without it, tells a line and keeps its tables; with
/// it, it is compacted.
#[test]
fn without_its_compressor(rt: HostRuntime) -> Result<()> {
    let alloc = rt.alloc();
    let mut env = RecordEnv::new(alloc);
    let mut engine = opened(alloc, &mut env, raising(alloc, buffered(1))?)?;
    for value in 0..6 {
        engine.put(&mut env, b"a", &[b'1' + value])?;
    }
    engine.abandon(&mut env)?;
    let tables = count_tables(alloc, &mut env)?;
    let lines = Lines::new(alloc)?;
    let mut options = tabling();
    options.log = Some(lines.log(alloc, "")?);
    let mut engine = opened(alloc, &mut env, options)?;
    assert!(rt; lines.counts().0 == 1);
    assert!(rt; one_byte(engine.get(&mut env, b"a")?) == b'6');
    assert!(rt; count_tables(alloc, &mut env)? == tables + 1);
    engine.close(&mut env)?;
    let mut engine = opened(alloc, &mut env, raising(alloc, tabling())?)?;
    assert!(rt; one_byte(engine.get(&mut env, b"a")?) == b'6');
    assert!(rt; count_tables(alloc, &mut env)? < tables);
    engine.close(&mut env)
}

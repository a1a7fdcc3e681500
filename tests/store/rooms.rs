//! A store with a memtable of one byte: each write but the first makes a table of the batch before.
use super::stores::{
    Change, DefaultEngine, DefaultOptions, STORE, batch_of, buffered, has_files, holds, opened,
    put_all, reopen,
};
use leveldb_base::error::{Result, StatusCode};
use leveldb_disks::mem_env::{MemEnv, Pick, RecordEnv};
use leveldb_env::env::Env;
use leveldb_env::infolog::{InfoSink, Logger};
use leveldb_env::options::Options;
use slow_store::has_levels;
use std::alloc::Global;
use std::cell::Cell;
use std::process::Abort;
use std::rc::Rc;
use support::{damage_file, failed_with};

type RecordEngine = DefaultEngine<RecordEnv>;

/// The one byte of the key's value, `-` for none, `?` for another value.
fn byte_of(env: &mut RecordEnv, engine: &mut RecordEngine, key: &[u8]) -> Result<u8> {
    Ok(match engine.get(env, key)? {
        None => b'-',
        Some(value) => match value.as_slice() {
            [byte] => *byte,
            _ => b'?',
        },
    })
}

/// Whether these are the bytes of the keys, each of one byte too, that are looked up in this order.
fn finds(env: &mut RecordEnv, engine: &mut RecordEngine, keys: &str, wanted: &str) -> Result<bool> {
    for (key, byte) in keys.as_bytes().iter().zip(wanted.as_bytes()) {
        if byte_of(env, engine, &[*key])? != *byte {
            return Ok(false);
        }
    }
    Ok(keys.len() == wanted.len())
}

/// Whether these are the bytes of the keys, and the device isn't called for them.
fn finds_in_memory(
    env: &mut RecordEnv,
    engine: &mut RecordEngine,
    keys: &str,
    wanted: &str,
) -> Result<bool> {
    let before = env.moment();
    Ok(finds(env, engine, keys, wanted)? && env.moment() == before)
}

/// Whether these are the bytes of the keys a, b and c in a store that is opened for that.
fn finds_again(alloc: Global, env: &mut RecordEnv, wanted: &str) -> Result<bool> {
    let mut engine = opened(alloc, env, Options::default())?;
    let is_right = finds(env, &mut engine, "abc", wanted)?;
    engine.abandon(env)?;
    Ok(is_right)
}

/// What is done to an open store and its files, or asked of them.
#[derive(Clone, Copy)]
pub enum Act {
    Put(&'static str, &'static str),
    /// A put of this key fails since the device failed, or since the store is broken.
    PutFails(&'static str),
    Delete(&'static str),
    /// Writes a batch of these changes.
    Write(&'static [Change]),
    /// Deletes the file at this path.
    Lose(&'static str),
    /// The byte of this file at this offset is one higher.
    Damage(&'static str, usize),
    /// The nth call of the device from now on fails.
    Fail(u64),
    /// These keys of one byte, looked up in this order, have these bytes, `-` for none.
    Finds(&'static str, &'static str),
    /// They have these bytes, and the device isn't called for them.
    FindsInMemory(&'static str, &'static str),
    /// A look-up of this key finds damage.
    FindsDamage(&'static str),
    /// The names of the store's folder and the sizes of its files are these.
    HasFiles(&'static str),
    /// The store's tables are in these levels.
    HasLevels(&'static str),
    /// The slow store reads this.
    Holds(&'static str),
}

fn change(alloc: Global, env: &mut RecordEnv, engine: &mut RecordEngine, act: &Act) -> Result<()> {
    match act {
        Act::Put(key, value) => engine.put(env, key.as_bytes(), value.as_bytes()),
        Act::Delete(key) => engine.delete(env, key.as_bytes()),
        Act::Write(changes) => engine.write(env, batch_of(alloc, changes)?, false),
        Act::Lose(path) => env.delete(path),
        Act::Damage(name, at) => damage_file(alloc, env, name, *at),
        _ => Ok(()),
    }
}

fn put_fails(env: &mut RecordEnv, engine: &mut RecordEngine, key: &str) -> Result<bool> {
    failed_with(engine.put(env, key.as_bytes(), b"2"), StatusCode::IOError)
}

fn finds_damage(env: &mut RecordEnv, engine: &mut RecordEngine, key: &str) -> Result<bool> {
    failed_with(engine.get(env, key.as_bytes()), StatusCode::Corruption)
}

/// Does what is to be done, and returns whether what is asked is so.
fn is_right(
    alloc: Global,
    env: &mut RecordEnv,
    engine: &mut RecordEngine,
    act: &Act,
) -> Result<bool> {
    match act {
        Act::PutFails(key) => put_fails(env, engine, key),
        Act::Fail(nth) => {
            env.fail(*nth, false);
            Ok(true)
        }
        Act::Finds(keys, wanted) => finds(env, engine, keys, wanted),
        Act::FindsInMemory(keys, wanted) => finds_in_memory(env, engine, keys, wanted),
        Act::FindsDamage(key) => finds_damage(env, engine, key),
        Act::HasFiles(wanted) => has_files(alloc, env, wanted),
        Act::HasLevels(wanted) => has_levels(alloc, env, STORE, wanted),
        Act::Holds(wanted) => holds(alloc, env, wanted),
        _ => {
            change(alloc, env, engine, act)?;
            Ok(true)
        }
    }
}

/// Does and asks all this, one after another.
pub fn play_on(
    rt: &impl Abort,
    alloc: Global,
    env: &mut RecordEnv,
    engine: &mut RecordEngine,
    acts: &[Act],
) -> Result<()> {
    for (at, act) in acts.iter().enumerate() {
        assert!(rt; is_right(alloc, env, engine, act)?, "row {at}");
    }
    Ok(())
}

/// The device of a store with a memtable of one byte, for which all this was done, and which gave
/// back its lock.
fn played(rt: &impl Abort, alloc: Global, acts: &[Act]) -> Result<RecordEnv> {
    let mut env = RecordEnv::new(alloc);
    let mut engine = opened(alloc, &mut env, buffered(1))?;
    play_on(rt, alloc, &mut env, &mut engine, acts)?;
    engine.abandon(&mut env)?;
    Ok(env)
}

/// Does and asks all this, and then finds these bytes of the keys a, b and c when the store is
/// opened again.
fn play(rt: &impl Abort, alloc: Global, acts: &[Act], found: &str) -> Result<()> {
    let mut env = played(rt, alloc, acts)?;
    assert!(rt; finds_again(alloc, &mut env, found)?);
    Ok(())
}

const ONE_TABLE: &[Act] = &[
    Act::Put("a", "1"),
    Act::Put("b", "2"),
    Act::HasFiles("000004.log:24 000005.ldb:177 CURRENT:16 LOCK:0 MANIFEST-000001:81 "),
    Act::HasLevels("level 2: 1 files, 177 bytes ([(5, 177)]); "),
    Act::Holds("2: 1a 2b"),
];

/// The batch before is a table then, of level 2 where no other file is; its log is deleted, and the
/// manifest has one more edit.
#[test]
fn a_table_of_the_batch_before(rt: HostRuntime) -> Result<()> {
    play(&rt, rt.alloc(), ONE_TABLE, "12-")
}

const NEWEST_FIRST: &[Act] = &[
    Act::Put("a", "1"),
    Act::Put("b", "2"),
    Act::Put("a", "3"),
    Act::Put("a", "4"),
    Act::Put("c", "5"),
    Act::Finds("abc", "425"),
    Act::Delete("b"),
    Act::Put("c", "6"),
    Act::Finds("abc", "4-6"),
    Act::HasLevels(
        "level 0: 1 files, 177 bytes ([(11, 177)]); level 1: 2 files, 353 bytes ([(9, 177), (15, 176)]); \
        level 2: 3 files, 531 bytes ([(5, 177), (7, 177), (13, 177)]); ",
    ),
];

/// Of tables in several levels the newest one that has the key decides, and a deletion is an entry
/// like any other.
#[test]
fn the_newest_table_first(rt: HostRuntime) -> Result<()> {
    play(&rt, rt.alloc(), NEWEST_FIRST, "4-6")
}

const ONE_KEY: &[Act] = &[
    Act::Put("a", "1"),
    Act::Put("a", "2"),
    Act::Put("a", "3"),
    Act::HasLevels(
        "level 1: 1 files, 177 bytes ([(7, 177)]); level 2: 1 files, 177 bytes ([(5, 177)]); ",
    ),
    Act::Finds("a", "3"),
];

const ONE_KEY_ON: &[Act] = &[
    Act::Put("a", "1"),
    Act::Put("a", "2"),
    Act::Put("a", "3"),
    Act::Put("a", "4"),
    Act::Put("a", "5"),
    Act::HasLevels(
        "level 0: 2 files, 354 bytes ([(9, 177), (11, 177)]); level 1: 1 files, 177 bytes ([(7, 177)]); \
        level 2: 1 files, 177 bytes ([(5, 177)]); ",
    ),
    Act::Finds("a", "5"),
];

/// Each table of one key is in a level above the ones before it, and in level 0 once that has one.
#[test]
fn tables_above_what_they_overlap(rt: HostRuntime) -> Result<()> {
    play(&rt, rt.alloc(), ONE_KEY, "3--")?;
    play(&rt, rt.alloc(), ONE_KEY_ON, "5--")
}

const EMPTY_BATCHES: &[Act] = &[
    Act::Write(&[]),
    Act::Write(&[]),
    Act::HasFiles("000003.log:38 CURRENT:16 LOCK:0 MANIFEST-000001:41 "),
    Act::Put("a", "1"),
    Act::HasFiles("000003.log:62 CURRENT:16 LOCK:0 MANIFEST-000001:41 "),
    Act::Holds("1: 1a"),
];

/// An empty batch comes to the log, and doesn't make the memtable full.
#[test]
fn empty_batches(rt: HostRuntime) -> Result<()> {
    play(&rt, rt.alloc(), EMPTY_BATCHES, "1--")
}

const LOST_TABLE: &[Act] = &[
    Act::Put("a", "1"),
    Act::Put("a", "2"),
    Act::Put("b", "3"),
    Act::Lose("db/000007.ldb"),
    Act::FindsDamage("a"),
    Act::Finds("bc", "3-"),
];

/// A table that can't be read is an error, and never passed over; keys outside its range are found
/// all the same.
#[test]
fn a_table_that_is_lost(rt: HostRuntime) -> Result<()> {
    played(&rt, rt.alloc(), LOST_TABLE)?;
    Ok(())
}

const WAITING: &[Act] = &[
    Act::Put("a", "1"),
    Act::Fail(3),
    Act::PutFails("b"),
    Act::Finds("abc", "1--"),
    Act::Put("b", "2"),
    Act::HasFiles("000003.log:24 000004.log:24 CURRENT:16 LOCK:0 MANIFEST-000001:41 "),
    Act::Put("c", "3"),
    Act::HasFiles(
        "000006.ldb:177 000007.log:24 000008.ldb:177 CURRENT:16 LOCK:0 MANIFEST-000001:121 ",
    ),
    Act::Finds("abc", "123"),
];

/// Where no table is made, the entries wait, and are found. They come to a table before the next
/// switch.
#[test]
fn entries_that_wait(rt: HostRuntime) -> Result<()> {
    play(&rt, rt.alloc(), WAITING, "123")
}

/// A write whose nth call fails breaks the store, which is read on and finds the same when it is
/// opened again.
fn break_at(rt: &impl Abort, alloc: Global, nth: u64) -> Result<()> {
    let acts = [
        Act::Put("a", "1"),
        Act::Fail(nth),
        Act::PutFails("b"),
        Act::PutFails("c"),
        Act::Finds("abc", "1--"),
    ];
    play(rt, alloc, &acts, "1--")
}

/// The sync of the log at a switch, and the append and the sync of the edit.
#[test]
fn switches_that_break_the_store(rt: HostRuntime) -> Result<()> {
    for nth in &[1, 10, 11] {
        break_at(&rt, rt.alloc(), *nth)?;
    }
    Ok(())
}

/// A sink that counts its lines.
#[derive(Drop)]
struct Counts(Rc<Cell<usize>>);

impl InfoSink for Counts {
    fn write(&mut self, _line: &[u8]) -> Result<()> {
        self.0.set(self.0.get().saturating_add(1));
        Ok(())
    }
}

/// These options with a sink that counts its lines here.
fn counted(
    alloc: Global,
    mut options: DefaultOptions,
    lines: &Rc<Cell<usize>>,
) -> Result<DefaultOptions> {
    options.log = Some(Logger(Box::new(alloc, Counts(lines.clone()?))?));
    Ok(options)
}

const LOG_LEFT: &[Act] = &[
    Act::Put("b", "2"),
    Act::HasFiles(
        "000003.log:24 000004.log:24 000005.ldb:177 CURRENT:16 LOCK:0 MANIFEST-000001:81 ",
    ),
];

const LOG_DELETED: &[Act] = &[
    Act::Put("c", "3"),
    Act::HasFiles(
        "000005.ldb:177 000006.log:24 000007.ldb:177 CURRENT:16 LOCK:0 MANIFEST-000001:121 ",
    ),
];

/// Puts twice, where the first call that lists or deletes a file fails: that is a line, the last
/// removal is an error, and the next switch deletes what is left.
fn leave_and_delete(
    rt: &impl Abort,
    alloc: Global,
    env: &mut RecordEnv,
    engine: &mut RecordEngine,
    lines: &Cell<usize>,
) -> Result<()> {
    play_on(rt, alloc, env, engine, LOG_LEFT)?;
    assert!(rt; lines.get() == 1 && engine.last_removal().is_err());
    play_on(rt, alloc, env, engine, LOG_DELETED)?;
    assert!(rt; lines.get() == 1 && engine.last_removal().is_ok());
    Ok(())
}

/// An engine on this device, one key put, whose nth call from now on fails.
fn failing_later(
    alloc: Global,
    env: &mut RecordEnv,
    options: DefaultOptions,
    nth: u64,
) -> Result<RecordEngine> {
    let mut engine = opened(alloc, env, options)?;
    engine.put(env, b"a", b"1")?;
    env.fail(nth, false);
    Ok(engine)
}

/// A folder that can't be listed, or an obsolete log that can't be deleted, is a line for the sink
/// and no error; the next switch deletes what is left.
fn leave_a_log(rt: &impl Abort, alloc: Global, nth: u64) -> Result<()> {
    let lines = Rc::new(alloc, Cell::new(0))?;
    let options = counted(alloc, buffered(1), &lines)?;
    let mut env = RecordEnv::new(alloc);
    let mut engine = failing_later(alloc, &mut env, options, nth)?;
    leave_and_delete(rt, alloc, &mut env, &mut engine, &lines)
}

#[test]
fn obsolete_files_that_stay(rt: HostRuntime) -> Result<()> {
    leave_a_log(&rt, rt.alloc(), 12)?;
    leave_a_log(&rt, rt.alloc(), 13)
}

/// How many calls an opening and an `abandon` of this disk take.
fn calls_of_opening(alloc: Global, env: &RecordEnv) -> Result<u64> {
    let pick = Pick {
        tails: Vec::new(alloc),
        after: false,
    };
    let mut trial = env.disk_at(alloc, env.moment(), &pick)?;
    reopen(alloc, &mut trial, Options::default())?;
    Ok(trial.moment() / 2)
}

/// An obsolete file that an opening can't delete is no error either.
#[test]
fn an_opening_beside_obsolete_files(rt: HostRuntime) -> Result<()> {
    let mut env = RecordEnv::new(rt.alloc());
    put_all(rt.alloc(), &mut env, Options::default(), &[("a", "1")])?;
    drop(env.open_writable_file("db/000007.dbtmp")?);
    let calls = calls_of_opening(rt.alloc(), &env)?;
    env.fail(calls, false);
    reopen(rt.alloc(), &mut env, Options::default())?;
    let wanted = "000003.log:24 000007.dbtmp:0 CURRENT:16 LOCK:0 MANIFEST-000001:41 ";
    assert!(rt; has_files(rt.alloc(), &mut env, wanted)?);
    reopen(rt.alloc(), &mut env, Options::default())?;
    let wanted = "000003.log:24 CURRENT:16 LOCK:0 MANIFEST-000001:41 ";
    assert!(rt; has_files(rt.alloc(), &mut env, wanted)?);
    Ok(())
}

/// A memtable of one byte, and a block for each pair of its table.
fn small_blocks() -> DefaultOptions {
    let mut options = buffered(1);
    options.block_size = 1;
    options
}

/// How many bytes the tables of the store's folder have.
fn table_bytes(alloc: Global, env: &mut RecordEnv) -> Result<usize> {
    let mut sum: usize = 0;
    for name in &env.children(alloc, STORE)? {
        if name.as_str().ends_with(".ldb") {
            let path = format!(in alloc; "{STORE}/{name}")?;
            sum = sum.saturating_add(env.size_of(&path)?);
        }
    }
    Ok(sum)
}

/// The disk of a crash at this moment that keeps all that was appended, or of an append in flight.
fn left_whole(alloc: Global, env: &RecordEnv, moment: u64) -> Result<RecordEnv> {
    let pick = Pick {
        tails: env.tails(alloc, moment, true)?,
        after: true,
    };
    env.disk_at(alloc, moment, &pick)
}

/// The disk on which a write makes a table of the keys a, b and c, and the moment before.
fn with_one_table(alloc: Global) -> Result<(RecordEnv, u64)> {
    let mut env = RecordEnv::new(alloc);
    let mut engine = opened(alloc, &mut env, small_blocks())?;
    let batch = batch_of(
        alloc,
        &[("a", Some("1")), ("b", Some("2")), ("c", Some("3"))],
    )?;
    engine.write(&mut env, batch, true)?;
    let before = env.moment();
    engine.put(&mut env, b"d", b"4")?;
    engine.abandon(&mut env)?;
    Ok((env, before))
}

/// A table has three blocks of pairs and four more pieces. A crash between two of them leaves a
/// file that isn't live: the next opening finds the same map.
#[test]
fn crashes_between_the_appends_of_a_table(rt: HostRuntime) -> Result<()> {
    let alloc = rt.alloc();
    let (mut env, before) = with_one_table(alloc)?;
    let whole = table_bytes(alloc, &mut env)?;
    let mut parts: u64 = 0;
    for moment in before..=env.moment() {
        let mut left = left_whole(alloc, &env, moment)?;
        let size = table_bytes(alloc, &mut left)?;
        if size > 0 && size < whole {
            parts = parts.saturating_add(1);
        }
        assert!(rt; finds_again(alloc, &mut left, "123")?, "moment {moment}");
    }
    assert!(rt; parts >= 6, "{parts} moments");
    Ok(())
}

/// Where the first of two obsolete files can't be deleted, the other is, and the sink gets one
/// line.
#[test]
fn a_deletion_that_fails_stops_no_other(rt: HostRuntime) -> Result<()> {
    let lines = Rc::new(rt.alloc(), Cell::new(0))?;
    let mut env = RecordEnv::new(rt.alloc());
    put_all(rt.alloc(), &mut env, Options::default(), &[("a", "1")])?;
    drop(env.open_writable_file("db/000007.dbtmp")?);
    drop(env.open_writable_file("db/000008.dbtmp")?);
    let calls = calls_of_opening(rt.alloc(), &env)?;
    env.fail(calls.saturating_sub(1), false);
    let options = counted(rt.alloc(), Options::default(), &lines)?;
    reopen(rt.alloc(), &mut env, options)?;
    assert!(rt; env.exists("db/000007.dbtmp")? != env.exists("db/000008.dbtmp")?);
    assert!(rt; lines.get() == 1);
    Ok(())
}

//! Compactions that a write does which finds room in its memtable: one each time that the memtable has grown by a part, where the score of a
//! level asks for it.
use super::stores::{
    DefaultEngine, DefaultOptions, STORE, buffered, count_tables, fail_in_turn, left_at, one_byte,
    opened,
};
use leveldb_base::cmp::DefaultCmp;
use leveldb_base::error::{Result, StatusCode};
use leveldb_disks::mem_env::RecordEnv;
use leveldb_env::env::Env;
use leveldb_env::options::Options;
use rusty_leveldb::Snapshot;
use slow_store::read_store;
use std::alloc::Global;
use std::process::Abort;
use support::{answered, damage_file, failed_with};

/// Each of these has two tables in level 0 that no other key's overlap.
const KEYS: &[u8] = b"abcdefgh";

/// So many bytes of a value are in two puts more than a part of the memtable, and in one less.
const LONG: usize = 40_000;

/// Tables of 256 KiB, so parts of 64 KiB, in a memtable of 4 MiB.
fn small_parts() -> DefaultOptions {
    let mut options = Options::default();
    options.max_file_size = 1 << 18;
    options
}

/// A store of two tables for each key in level 0, which an opening made of one log, but for those of the compaction that it did.
fn with_debt(alloc: Global) -> Result<RecordEnv> {
    let mut env = RecordEnv::new(alloc);
    let mut engine = opened(alloc, &mut env, Options::default())?;
    for value in [b'1', b'2'] {
        for key in KEYS {
            engine.put(&mut env, &[*key], &[value])?;
        }
    }
    engine.close(&mut env)?;
    let mut engine = opened(alloc, &mut env, buffered(1))?;
    engine.close(&mut env)?;
    Ok(env)
}

/// Whether the files are a store by its definition.
fn is_whole(alloc: Global, env: &mut RecordEnv) -> Result<bool> {
    let read = read_store(alloc, env, &DefaultCmp, STORE);
    Ok(answered(read)?.is_ok())
}

/// How many logs are in the store's folder.
fn count_logs(alloc: Global, env: &mut RecordEnv) -> Result<usize> {
    let names = env.children(alloc, STORE)?;
    Ok(
        names
            .iter()
            .filter(|name| name.as_str().ends_with(".log"))
            .count(),
    )
}

/// A store that is open, with more to compact than its opening did.
#[derive(Drop)]
struct Trial {
    alloc: Global,
    env: RecordEnv,
    engine: DefaultEngine<RecordEnv>,
    value: Vec<u8>,
}

impl Trial {
    fn new(alloc: Global) -> Result<Trial> {
        let mut env = with_debt(alloc)?;
        let engine = opened(alloc, &mut env, small_parts())?;
        let value = vec![in alloc; b'v'; LONG]?;
        Ok(Trial {
            alloc,
            env,
            engine,
            value,
        })
    }

    /// Puts a long value.
    fn put(&mut self) -> Result<()> {
        self.engine.put(&mut self.env, b"z", self.value.as_slice())
    }

    /// Puts it, and returns how many tables there are fewer.
    fn tables_gone(&mut self) -> Result<usize> {
        let before = count_tables(self.alloc, &mut self.env)?;
        self.put()?;
        Ok(before - count_tables(self.alloc, &mut self.env)?)
    }

    /// Whether each key has its value, now or at a snapshot.
    fn has_keys(&mut self, at: Option<Snapshot>) -> Result<bool> {
        for key in KEYS {
            let found = match at {
                None => self.engine.get(&mut self.env, &[*key])?,
                Some(snapshot) => self.engine.get_at(&mut self.env, snapshot, &[*key])?,
            };
            if one_byte(found) != b'2' {
                return Ok(false);
            }
        }
        Ok(true)
    }

    /// Whether the long value is found.
    fn has_long(&mut self) -> Result<bool> {
        let found = self.engine.get(&mut self.env, b"z")?;
        Ok(match found {
            Some(value) => value.as_slice() == self.value.as_slice(),
            None => false,
        })
    }

    fn end(self) -> Result<()> {
        let Trial {
            alloc: _,
            env,
            engine,
            value: _,
        } = self;
        let mut env = env;
        engine.abandon(&mut env)
    }
}

/// Two puts fill a part, and the third compacts two tables of a key into one, and so does each second one after it, while level 0 has four
/// tables or more. The log stays the same.
#[test]
fn one_for_each_part(rt: HostRuntime) -> Result<()> {
    let mut trial = Trial::new(rt.alloc())?;
    let logs = count_logs(trial.alloc, &mut trial.env)?;
    let held = trial.engine.get_snapshot()?;
    // Of sixteen tables of level 0 each of the two openings merged two.
    assert!(rt; count_tables(trial.alloc, &mut trial.env)? == 14);
    let mut gone = Vec::new(trial.alloc);
    for _ in 0..16 {
        gone.push(trial.tables_gone()?)?;
    }
    assert!(rt; gone.as_slice() == [0, 0, 1, 0, 1, 0, 1, 0, 1, 0, 1, 0, 0, 0, 0, 0].as_slice());
    assert!(rt; count_logs(trial.alloc, &mut trial.env)? == logs);
    assert!(rt; trial.has_keys(None)? && trial.has_keys(Some(held))?);
    assert!(rt; trial.has_long()? && is_whole(trial.alloc, &mut trial.env)?);
    trial.end()
}

/// Small puts fill no part: none compacts.
#[test]
fn none_without_a_part(rt: HostRuntime) -> Result<()> {
    let mut trial = Trial::new(rt.alloc())?;
    let before = count_tables(trial.alloc, &mut trial.env)?;
    for _ in 0..100 {
        trial.engine.put(&mut trial.env, b"z", b"1")?;
    }
    assert!(rt; count_tables(trial.alloc, &mut trial.env)? == before);
    trial.end()
}

/// Damages each table.
fn damage_tables(alloc: Global, env: &mut RecordEnv) -> Result<()> {
    for name in env.children(alloc, STORE)? {
        if name.as_str().ends_with(".ldb") {
            damage_file(alloc, env, name.as_str(), 0)?;
        }
    }
    Ok(())
}

/// A compaction over damaged tables fails the write for which it was due. The same write goes through then, and so do those after it until
/// the next part is full.
#[test]
fn over_damaged_tables(rt: HostRuntime) -> Result<()> {
    let mut trial = Trial::new(rt.alloc())?;
    damage_tables(trial.alloc, &mut trial.env)?;
    trial.put()?;
    trial.put()?;
    for _ in 0..3 {
        assert!(rt; failed_with(trial.put(), StatusCode::Corruption)?);
        trial.put()?;
        trial.put()?;
        assert!(rt; trial.has_long()?);
    }
    trial.end()
}

/// A store before the put that compacts.
fn before_the_third(alloc: Global) -> Result<Trial> {
    let mut trial = Trial::new(alloc)?;
    trial.put()?;
    trial.put()?;
    Ok(trial)
}

/// Reads do none, though one is due: the next put does it.
#[test]
fn none_at_reads(rt: HostRuntime) -> Result<()> {
    let mut trial = before_the_third(rt.alloc())?;
    let before = count_tables(trial.alloc, &mut trial.env)?;
    for _ in 0..10 {
        assert!(rt; trial.has_keys(None)? && trial.has_long()?);
    }
    assert!(rt; count_tables(trial.alloc, &mut trial.env)? == before);
    assert!(rt; trial.tables_gone()? == 1);
    trial.end()
}

/// Whether each key is found in a store that is opened for that.
fn reopens(alloc: Global, env: RecordEnv) -> Result<bool> {
    let mut env = env;
    let engine = opened(alloc, &mut env, small_parts())?;
    let value = vec![in alloc; b'v'; LONG]?;
    let mut trial = Trial {
        alloc,
        env,
        engine,
        value,
    };
    let found = trial.has_keys(None)? && is_whole(alloc, &mut trial.env)?;
    trial.end()?;
    Ok(found)
}

/// A crash at one of so many moments of a put that compacts leaves each key.
pub fn crash_in_puts(rt: &impl Abort, alloc: Global, every: u64) -> Result<()> {
    let mut trial = before_the_third(alloc)?;
    let before = trial.env.moment();
    trial.put()?;
    let after = trial.env.moment();
    assert!(rt; after - before > 20);
    for moment in before..=after {
        if moment % every == 0 {
            for whole in [false, true] {
                let left = left_at(alloc, &trial.env, moment, whole)?;
                assert!(rt; reopens(alloc, left)?, "moment {moment} {whole}");
            }
        }
    }
    trial.end()
}

#[test]
fn crashes_at_one_of_seven_moments(rt: HostRuntime) -> Result<()> {
    crash_in_puts(&rt, rt.alloc(), 7)
}

/// What a put that compacts returns where its nth call fails, done or not: whether it is Ok, or none where fewer calls are made. Where the
/// store isn't broken, the same put goes through then; and each key is found again.
fn put_failing_at(rt: &impl Abort, alloc: Global, nth: u64, done: bool) -> Result<Option<bool>> {
    let mut trial = before_the_third(alloc)?;
    let before = trial.env.moment();
    trial.env.fail(nth, done);
    let first = answered(trial.put())?;
    let calls = (trial.env.moment() - before) / 2;
    trial.env.fail(0, false);
    if let Err(status) = &first {
        assert!(rt; status.code == StatusCode::IOError, "call {nth} {done}");
    }
    if trial.engine.check_writable().is_ok() {
        trial.put()?;
        assert!(rt; trial.has_long()?, "call {nth} {done}");
    }
    assert!(rt; trial.has_keys(None)?, "call {nth} {done}");
    let Trial {
        alloc: _,
        env,
        engine,
        value: _,
    } = trial;
    let mut env = env;
    engine.abandon(&mut env)?;
    assert!(rt; reopens(alloc, env)?, "call {nth} {done}");
    if calls < nth {
        return Ok(None);
    }
    Ok(Some(first.is_ok()))
}

/// One of so many calls of the device fails, done or not. Returns how many puts were refused, and how many went through.
pub fn fail_in_puts(
    rt: &impl Abort,
    alloc: Global,
    every: u64,
    done: bool,
) -> Result<(usize, usize)> {
    fail_in_turn(every, done, |nth| put_failing_at(rt, alloc, nth, done))
}

#[test]
fn one_of_five_calls_fails(rt: HostRuntime) -> Result<()> {
    for done in [false, true] {
        let (refused, through) = fail_in_puts(&rt, rt.alloc(), 5, done)?;
        assert!(rt; refused > 0, "{done}: {refused} {through}");
    }
    Ok(())
}

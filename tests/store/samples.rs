//! Samples of the keys that iterators read: after how many bytes one is taken, and that they ask
//! for a compaction as look-ups do.

use super::stores::{DefaultEngine, buffered, count_tables, opened};
use leveldb_base::error::Result;
use leveldb_env::mem_env::MemEnv;
use rand_core::{Rng, SeedableRng};
use rand_xoshiro::Xoshiro256PlusPlus;
use rusty_leveldb::db_impl::sample_period;
use rusty_leveldb::read_samples::ReadSamples;
use std::alloc::Global;
use std::process::Abort;

/// The generator of a store that was opened just now.
fn new_generator() -> Xoshiro256PlusPlus {
    Xoshiro256PlusPlus::seed_from_u64(0xdeadbeef)
}

/// When samples are taken, by a generator of the test's own.
#[derive(Drop)]
pub struct Periods {
    random: Xoshiro256PlusPlus,
    left: u64,
}

impl Periods {
    pub fn new() -> Periods {
        let mut random = new_generator();
        let left = random.next_u64() % (2 << 20);
        Periods { random, left }
    }

    /// Whether a sample is taken after so many bytes more.
    pub fn end_after(&mut self, bytes: u64) -> bool {
        if bytes <= self.left {
            self.left -= bytes;
            return false;
        }
        self.left = self.random.next_u64() % (2 << 20);
        true
    }
}

/// One number of the generator is drawn for each, and they are below 2 MiB, 1 MiB in the mean. The
/// first ones were worked out apart from this code.
#[test]
fn periods(rt: HostRuntime) -> Result<()> {
    let mut rng = new_generator();
    for period in [626_398, 57_570, 1_659_682, 322_199] {
        assert!(rt; sample_period(&mut rng) == period);
    }
    let mut twin = new_generator();
    for _ in 0..4 {
        twin.next_u64();
    }
    let mut sum = 0;
    for _ in 0..1000 {
        let period = sample_period(&mut rng);
        assert!(rt; period < 2 << 20 && period == twin.next_u64() % (2 << 20));
        sum += period;
    }
    assert!(rt; 900 << 20 < sum && sum < 1100 << 20);
    Ok(())
}

/// A sample is taken with the first byte past a period, and then the next period is drawn, however
/// many bytes there were.
#[test]
fn a_byte_past_a_period(rt: HostRuntime) -> Result<()> {
    let mut samples = ReadSamples::new(rt.alloc());
    assert!(rt; !samples.count(626_398) && !samples.count(0));
    assert!(rt; samples.count(1));
    assert!(rt; !samples.count(57_569) && !samples.count(1));
    assert!(rt; samples.count(u64::MAX));
    assert!(rt; !samples.count(1_659_682) && samples.count(1));
    Ok(())
}

/// The length of a value of which a sample or two are taken in each scan.
const LENGTH: usize = 1 << 20;

/// The bytes of an entry with a key of one byte and a value of so many.
fn entry_bytes(value: usize) -> u64 {
    1 + 8 + value as u64
}

/// A store that is open, with two values of a key in tables of levels 2 and 1, and a key after it
/// in memory.
#[derive(Drop)]
struct Trial {
    alloc: Global,
    env: MemEnv,
    engine: DefaultEngine<MemEnv>,
    periods: Periods,
}

impl Trial {
    fn new(alloc: Global) -> Result<Trial> {
        let mut env = MemEnv::new(alloc);
        let mut engine = opened(alloc, &mut env, buffered(1))?;
        let value = vec![in alloc; b'v'; LENGTH]?;
        engine.put(&mut env, b"a", &value)?;
        engine.put(&mut env, b"a", &value)?;
        engine.put(&mut env, b"b", b"1")?;
        Ok(Trial {
            alloc,
            env,
            engine,
            periods: Periods::new(),
        })
    }

    /// Goes over all pairs with an iterator of its own. Returns whether the first key was sampled:
    /// the second is in one file at most.
    fn scan(&mut self, rt: &impl Abort) -> Result<bool> {
        let mut it = self.engine.new_iter(&mut self.env)?;
        assert!(rt; it.advance()?);
        let sampled = self.periods.end_after(entry_bytes(LENGTH));
        // It goes over the older value.
        assert!(rt; it.advance()?);
        self.periods.end_after(entry_bytes(LENGTH) + entry_bytes(1));
        assert!(rt; !it.advance()?);
        Ok(sampled)
    }

    /// Scans until the first key was sampled so often.
    fn scan_for(&mut self, rt: &impl Abort, samples: usize) -> Result<()> {
        let mut count = 0;
        while count < samples {
            count += self.scan(rt)? as usize;
        }
        Ok(())
    }
}

/// How many tables are left where a key was sampled so often, after a write that makes a table of
/// the memtable, or a compaction of a range without keys.
fn tables_after_samples(
    rt: &impl Abort,
    alloc: Global,
    samples: usize,
    writes: bool,
) -> Result<usize> {
    let mut trial = Trial::new(alloc)?;
    assert!(rt; count_tables(alloc, &mut trial.env)? == 2);
    trial.scan_for(rt, samples)?;
    assert!(rt; count_tables(alloc, &mut trial.env)? == 2);
    if writes {
        trial.engine.put(&mut trial.env, b"c", b"2")?;
    } else {
        trial.engine.compact_range(&mut trial.env, b"x", b"y")?;
    }
    let tables = count_tables(trial.alloc, &mut trial.env)?;
    trial.engine.abandon(&mut trial.env)?;
    Ok(tables)
}

/// A file whose key was sampled a hundred times, by iterators one after another, is compacted by
/// the next write that makes room, or the next compaction of a range.
#[test]
fn a_hundred_samples(rt: HostRuntime) -> Result<()> {
    for writes in [true, false] {
        assert!(rt; tables_after_samples(&rt, rt.alloc(), 99, writes)? == 3);
        assert!(rt; tables_after_samples(&rt, rt.alloc(), 100, writes)? == 2);
    }
    Ok(())
}

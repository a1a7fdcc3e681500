//! Scans that look random, forward and back, now and at snapshots, in a store of many small tables:
//! each beside a plain list of the pairs that the history shows. And one on a device that fails.
use super::stores::{DefaultEngine, DefaultOptions, opened};
use leveldb_base::cmp::{Cmp, DefaultCmp};
use leveldb_base::error::{Result, StatusCode};
use leveldb_disks::mem_env::RecordEnv;
use leveldb_env::env::Env;
use leveldb_env::mem_env::MemEnv;
use leveldb_env::options::Options;
use rusty_leveldb::{Scan, Snapshot};
use slow_history::{BorrowedPair, Entry, view_of};
use std::alloc::Global;
use std::cmp::Ordering;
use std::process::Abort;
use support::Random;

const KEYS: u64 = 40;

/// A store, its history, and the snapshots that are held with their numbers.
#[derive(Drop)]
struct Trial {
    alloc: Global,
    env: MemEnv,
    engine: DefaultEngine<MemEnv>,
    history: Vec<Entry>,
    held: Vec<(Snapshot, u64)>,
    random: Random,
}

fn options_of(seed: u64) -> DefaultOptions {
    let mut options = Options::default();
    options.write_buffer_size = 700;
    options.max_file_size = if seed % 2 == 0 { 300 } else { 2000 };
    options.block_size = 60;
    options
}

fn is_before(a: &[u8], b: &[u8]) -> bool {
    DefaultCmp.cmp(a, b) == Ordering::Less
}

/// The first pairs of a scan of these, which are in order.
fn first_of<'a>(
    alloc: Global,
    view: &[BorrowedPair<'a>],
    scan: Scan<'_>,
    count: usize,
) -> Result<Vec<BorrowedPair<'a>>> {
    let mut wanted = Vec::new(alloc);
    for pair in view {
        let there = match scan {
            Scan::First | Scan::Last => true,
            Scan::From(key) => !is_before(pair.0, key),
            Scan::Before(key) => is_before(pair.0, key),
        };
        if there {
            wanted.push(*pair)?;
        }
    }
    if matches!(scan, Scan::Before(_) | Scan::Last) {
        wanted.reverse();
    }
    wanted.truncate(count);
    Ok(wanted)
}

fn are_copies(copies: &[(Vec<u8>, Vec<u8>)], pairs: &[BorrowedPair<'_>]) -> bool {
    copies.len() == pairs.len()
        && copies.iter().zip(pairs).all(|(copy, pair)| copy.0.as_slice() == pair.0
            && copy.1.as_slice() == pair.1)
}

impl Trial {
    fn key(&mut self) -> Result<Vec<u8>> {
        let number = self.random.below(KEYS);
        let mut key = Vec::from_slice(self.alloc, b"k")?;
        key.push(b'a' + (number / 8) as u8)?;
        key.push(b'a' + (number % 8) as u8)?;
        Ok(key)
    }

    /// A key that may be there, one that lies between two, an empty one, or one after all.
    fn bound(&mut self) -> Result<Vec<u8>> {
        let mut key = self.key()?;
        match self.random.below(8) {
            0 => key.clear(),
            1 => key = Vec::from_slice(self.alloc, b"z")?,
            2..=3 => key.push(0)?,
            _ => {}
        }
        Ok(key)
    }

    fn write(&mut self) -> Result<()> {
        let key = self.key()?;
        let sequence = self.history.len() as u64 + 1;
        let value = if self.random.below(3) == 0 {
            self.engine.delete(&mut self.env, &key)?;
            None
        } else {
            let size = self.random.below(50) as usize;
            let value = vec![in self.alloc; (sequence % 251) as u8; size]?;
            self.engine.put(&mut self.env, &key, &value)?;
            Some(value)
        };
        self.history.push(Entry {
            sequence,
            key,
            value,
        })?;
        Ok(())
    }

    fn snap(&mut self) -> Result<()> {
        if self.held.len() == 3 {
            let index = self.random.below(3) as usize;
            let (snapshot, _) = self.held.remove(index);
            return self.engine.release_snapshot(snapshot);
        }
        let snapshot = self.engine.get_snapshot()?;
        self.held.push((snapshot, self.history.len() as u64))?;
        Ok(())
    }

    /// Whether a scan appends what the history shows to a vector that has a pair already.
    fn scans(&mut self) -> Result<bool> {
        let bound = self.bound()?;
        let scan = match self.random.below(6) {
            0 => Scan::First,
            1 => Scan::Last,
            2..=3 => Scan::From(&bound),
            _ => Scan::Before(&bound),
        };
        let count = match self.random.below(8) {
            0 => 0,
            1 => usize::MAX,
            _ => self.random.below(KEYS) as usize,
        };
        let index = self.random.below(self.held.len() as u64 + 1) as usize;
        let (at, sequence) = match self.held.get(index) {
            Some((snapshot, sequence)) => (Some(*snapshot), *sequence),
            None => (None, self.history.len() as u64),
        };
        let mut copies = Vec::new(self.alloc);
        copies.push((Vec::new(self.alloc), Vec::new(self.alloc)))?;
        self.engine
            .scan(&mut self.env, at, scan, count, &mut copies)?;
        let mut entries = Vec::new(self.alloc);
        for entry in &self.history {
            entries.push(entry)?;
        }
        let view = view_of(self.alloc, &DefaultCmp, entries.as_slice(), sequence)?;
        let wanted = first_of(self.alloc, view.as_slice(), scan, count)?;
        Ok(copies[0].0.is_empty() && are_copies(&copies[1..], wanted.as_slice()))
    }
}

fn try_scans(rt: &impl Abort, alloc: Global, seed: u64) -> Result<()> {
    let mut env = MemEnv::new(alloc);
    let engine = opened(alloc, &mut env, options_of(seed))?;
    let mut trial = Trial {
        alloc,
        env,
        engine,
        history: Vec::new(alloc),
        held: Vec::new(alloc),
        random: Random(seed),
    };
    for step in 0..300 {
        match trial.random.below(20) {
            0..=1 => trial.snap()?,
            2 if step % 3 == 0 => trial.engine.compact_range(&mut trial.env, b"", b"")?,
            _ => trial.write()?,
        }
        assert!(rt; trial.scans()?, "seed {seed}, step {step}");
    }
    trial.engine.abandon(&mut trial.env)
}

#[test]
fn random_scans(rt: HostRuntime) -> Result<()> {
    for seed in 0..4 {
        try_scans(&rt, rt.alloc(), seed)?;
    }
    Ok(())
}

/// A snapshot that isn't held, and a store that is closed: nothing is appended.
#[test]
fn refused_scans(rt: HostRuntime) -> Result<()> {
    let alloc = rt.alloc();
    let mut env = MemEnv::new(alloc);
    let mut engine = opened(alloc, &mut env, Options::default())?;
    engine.put(&mut env, b"a", b"1")?;
    let snapshot = engine.get_snapshot()?;
    engine.release_snapshot(snapshot)?;
    let mut pairs = Vec::new(alloc);
    match engine.scan(&mut env, Some(snapshot), Scan::First, 9, &mut pairs) {
        Ok(()) => assert!(rt; false),
        Err(status) => assert!(rt; status.code == StatusCode::InvalidArgument),
    }
    engine.scan(&mut env, None, Scan::First, 9, &mut pairs)?;
    assert!(rt; pairs.len() == 1);
    engine.close(&mut env)?;
    assert!(rt;
        engine
            .scan(&mut env, None, Scan::Last, 9, &mut pairs)
            .is_err()
    );
    assert!(rt; pairs.len() == 1);
    Ok(())
}

/// How many pairs a scan appends where a call of the device fails, or an error.
fn scan_failing<E: Env>(
    alloc: Global,
    env: &mut E,
    engine: &mut DefaultEngine<E>,
) -> Result<(usize, bool)> {
    let mut pairs = Vec::new(alloc);
    let failed = engine
        .scan(env, None, Scan::Last, usize::MAX, &mut pairs)
        .is_err();
    Ok((pairs.len(), failed))
}

/// Each call of a scan over tables fails once: nothing is appended then, and the next scan gives all.
#[test]
fn failing_scans(rt: HostRuntime) -> Result<()> {
    let alloc = rt.alloc();
    let mut env = RecordEnv::new(alloc);
    let mut engine = opened(alloc, &mut env, options_of(0))?;
    let value = [7; 100];
    for key in b'a'..b'z' {
        engine.put(&mut env, &[key], &value)?;
    }
    engine.compact_range(&mut env, b"", b"")?;
    engine.close(&mut env)?;
    engine.abandon(&mut env)?;
    let mut failures = 0;
    for nth in 1..200 {
        let mut engine = opened(alloc, &mut env, options_of(0))?;
        env.fail(nth, false);
        let (count, failed) = scan_failing(alloc, &mut env, &mut engine)?;
        env.fail(0, false);
        let (all, _) = scan_failing(alloc, &mut env, &mut engine)?;
        engine.abandon(&mut env)?;
        assert!(rt; all == 25, "call {nth}: {all} pairs");
        assert!(rt;
            count == if failed { 0 } else { 25 },
            "call {nth}: {count} pairs"
        );
        if !failed {
            assert!(rt; failures > 5, "{failures} calls");
            return Ok(());
        }
        failures += 1;
    }
    assert!(rt; false, "each call fails");
    Ok(())
}

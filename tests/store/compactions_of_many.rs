//! Many keys in small tables: puts, deletions, snapshots and compactions that look random, each
//! view compared with that of the history.
use super::stores::{DefaultEngine, DefaultOptions, STORE, opened};
use leveldb_base::cmp::DefaultCmp;
use leveldb_base::error::Result;
use leveldb_env::mem_env::MemEnv;
use leveldb_env::options::Options;
use rusty_leveldb::Snapshot;
use slow_history::{Entry, look_up};
use slow_store::read_store;
use std::alloc::Global;
use std::process::Abort;
use support::Random;

const KEYS: u64 = 40;

/// A store, its history, and the snapshots that are held with their numbers.
#[derive(Drop)]
struct Trial {
    alloc: Global,
    env: MemEnv,
    engine: DefaultEngine<MemEnv>,
    history: Vec<Entry>,
    held: Vec<(Snapshot, u64)>,
    random: Random,
}

fn options_of(seed: u64) -> DefaultOptions {
    let mut options = Options::default();
    options.write_buffer_size = 1000;
    options.max_file_size = if seed % 2 == 0 { 400 } else { 3000 };
    options.block_size = 60;
    options
}

fn key_of(alloc: Global, number: u64) -> Result<Vec<u8>> {
    let mut key = Vec::new(alloc);
    key.push(b'a' + (number / 7) as u8)?;
    key.push(b'a' + (number % 7) as u8)?;
    Ok(key)
}

impl Trial {
    fn any_key(&mut self) -> Result<Vec<u8>> {
        let number = self.random.below(KEYS);
        key_of(self.alloc, number)
    }

    /// One end of a range: a key, or none in one of eight cases.
    fn any_end(&mut self) -> Result<Vec<u8>> {
        if self.random.below(8) == 0 {
            return Ok(Vec::new(self.alloc));
        }
        self.any_key()
    }

    /// Appends an entry to the history.
    fn record(&mut self, key: Vec<u8>, value: Option<Vec<u8>>) -> Result<()> {
        let sequence = self.history.len() as u64 + 1;
        self.history.push(Entry {
            sequence,
            key,
            value,
        })?;
        Ok(())
    }

    /// Puts a value of this many bytes.
    fn put(&mut self, key: Vec<u8>, size: usize) -> Result<()> {
        let byte = (self.history.len() % 251) as u8;
        let value = vec![in self.alloc; byte; size]?;
        self.engine.put(&mut self.env, &key, &value)?;
        self.record(key, Some(value))
    }

    fn write(&mut self) -> Result<()> {
        let key = self.any_key()?;
        if self.random.below(3) == 0 {
            self.engine.delete(&mut self.env, &key)?;
            return self.record(key, None);
        }
        let size = self.random.below(60) as usize;
        self.put(key, size)
    }

    fn snap(&mut self) -> Result<()> {
        if self.held.len() == 3 {
            let index = self.random.below(3) as usize;
            let (snapshot, _) = self.held.remove(index);
            return self.engine.release_snapshot(snapshot);
        }
        let snapshot = self.engine.get_snapshot()?;
        self.held.push((snapshot, self.history.len() as u64))?;
        Ok(())
    }

    fn compact(&mut self) -> Result<()> {
        let from = self.any_end()?;
        let to = self.any_end()?;
        self.engine.compact_range(&mut self.env, &from, &to)
    }

    fn step(&mut self) -> Result<()> {
        match self.random.below(40) {
            0..=1 => self.snap(),
            2..=3 => self.compact(),
            _ => self.write(),
        }
    }

    /// Whether a key has the value of the history at a number, now or at a snapshot.
    fn has(&mut self, at: Option<(Snapshot, u64)>, key: &[u8]) -> Result<bool> {
        let (found, sequence) = match at {
            None => (
                self.engine.get(&mut self.env, key)?,
                self.history.len() as u64,
            ),
            Some((snapshot, sequence)) => (
                self.engine.get_at(&mut self.env, snapshot, key)?,
                sequence,
            ),
        };
        let mut entries = Vec::new(self.alloc);
        for entry in &self.history {
            entries.push(entry)?;
        }
        let wanted = look_up(entries.as_slice(), sequence, key);
        Ok(match (&found, wanted) {
            (None, None) => true,
            (Some(found), Some(wanted)) => found.as_slice() == wanted,
            _ => false,
        })
    }

    fn has_view(&mut self, at: Option<(Snapshot, u64)>) -> Result<bool> {
        for number in 0..KEYS {
            let key = key_of(self.alloc, number)?;
            if !self.has(at, &key)? {
                return Ok(false);
            }
        }
        Ok(true)
    }

    fn has_views(&mut self) -> Result<bool> {
        for index in 0..self.held.len() {
            let at = self.held[index];
            if !self.has_view(Some(at))? {
                return Ok(false);
            }
        }
        self.has_view(None)
    }

    /// How many entries the store's files have, which are a store by its definition.
    fn count_entries(&mut self) -> Result<usize> {
        let contents = read_store(self.alloc, &mut self.env, &DefaultCmp, STORE)?;
        Ok(contents.map_or(0, |it| it.entries.len()))
    }
}

/// Steps that look random, and each view after each twenty of them.
fn try_steps(rt: &impl Abort, alloc: Global, seed: u64) -> Result<()> {
    let mut env = MemEnv::new(alloc);
    let engine = opened(alloc, &mut env, options_of(seed))?;
    let mut trial = Trial {
        alloc,
        env,
        engine,
        history: Vec::new(alloc),
        held: Vec::new(alloc),
        random: Random(seed),
    };
    for step in 0..400 {
        trial.step()?;
        if step % 20 == 0 {
            assert!(rt; trial.has_views()?, "seed {seed}, step {step}");
            trial.count_entries()?;
        }
    }
    assert!(rt; trial.has_views()?, "seed {seed}");
    settle(rt, trial, seed)
}

/// Releases all snapshots, puts each key, and compacts all until tables stay where they are: each
/// key has one entry.
fn settle(rt: &impl Abort, trial: Trial, seed: u64) -> Result<()> {
    let mut trial = trial;
    while let Some((snapshot, _)) = trial.held.pop() {
        trial.engine.release_snapshot(snapshot)?;
    }
    for number in 0..KEYS {
        let key = key_of(trial.alloc, number)?;
        trial.put(key, 7)?;
    }
    for _ in 0..8 {
        trial.engine.compact_range(&mut trial.env, b"", b"")?;
    }
    assert!(rt; trial.has_views()?, "seed {seed}");
    let entries = trial.count_entries()?;
    assert!(rt; entries as u64 == KEYS, "seed {seed}: {entries} entries");
    trial.engine.abandon(&mut trial.env)
}

/// Steps of each of this many seeds.
pub fn try_seeds(rt: &impl Abort, alloc: Global, seeds: u64) -> Result<()> {
    for seed in 0..seeds {
        try_steps(rt, alloc, seed)?;
    }
    Ok(())
}

#[test]
fn random_steps(rt: HostRuntime) -> Result<()> {
    try_seeds(&rt, rt.alloc(), 2)
}

//! A store with a small memtable, whose calls are made again where they find no memory.
//! `tools/refuse` refuses each allocation in turn.
use super::stores::{Change, DefaultEngine, DefaultOptions, STORE, batch_of, reusing, text_of};
use leveldb_base::error::{Result, Status, StatusCode};
use leveldb_env::env::Env;
use leveldb_env::mem_env::MemEnv;
use std::alloc::{AllocError, Global};
use std::process::Abort;

/// Whether the batch is synced, and its changes.
type Batch = (bool, &'static [Change]);

/// Three entries fill the memtable.
const FIRST: [Batch; 8] = [
    (false, &[("a", Some("1"))]),
    (true, &[("b", Some("2")), ("c", Some("3"))]),
    (false, &[("d", Some("4"))]),
    (false, &[("a", None)]),
    (false, &[]),
    (false, &[("b", Some("5")), ("c", None)]),
    (true, &[("e", Some(""))]),
    (false, &[("a", Some("6"))]),
];

const SECOND: [Batch; 3] = [
    (false, &[("c", Some("7"))]),
    (false, &[("a", None), ("e", Some("8"))]),
    (true, &[("b", None)]),
];

/// What is found in the end. The key d was written once, in the first life.
const FOUND: [(&str, &str); 5] = [
    ("a", "none"),
    ("b", "none"),
    ("c", "7"),
    ("d", "4"),
    ("e", "8"),
];

/// A store in memory, and how many of its calls found no memory.
#[derive(Drop)]
struct Trial {
    alloc: Global,
    env: MemEnv,
    refused: usize,
}

fn options_of(reuses: bool) -> DefaultOptions {
    let mut options = reusing(reuses, reuses);
    options.write_buffer_size = 300;
    options
}

impl Trial {
    /// Whether a call is to be made again, since it found no memory.
    fn is_refused<T>(&mut self, answer: &Result<T>) -> bool {
        let is_refused = matches!(answer, Err(status) if status.code == StatusCode::OutOfMemory);
        self.refused = self.refused.saturating_add(usize::from(is_refused));
        is_refused
    }

    fn open_once(&mut self, reuses: bool) -> Result<DefaultEngine<MemEnv>> {
        DefaultEngine::open(self.alloc, STORE, &mut self.env, options_of(reuses))
    }

    fn open(&mut self, reuses: bool) -> Result<DefaultEngine<MemEnv>> {
        let opened = self.open_once(reuses);
        if self.is_refused(&opened) {
            return self.open_once(reuses);
        }
        opened
    }

    fn write_once(&mut self, engine: &mut DefaultEngine<MemEnv>, batch: &Batch) -> Result<()> {
        engine.write(&mut self.env, batch_of(self.alloc, batch.1)?, batch.0)
    }

    fn write(&mut self, engine: &mut DefaultEngine<MemEnv>, batch: &Batch) -> Result<()> {
        let written = self.write_once(engine, batch);
        if !self.is_refused(&written) {
            return written;
        }
        self.mend(engine)?;
        self.write_once(engine, batch)
    }

    /// Opens the store again, where a call broke it, since the device had no memory for an append.
    fn mend(&mut self, engine: &mut DefaultEngine<MemEnv>) -> Result<()> {
        if engine.check_writable().is_err() {
            self.env.unlock("db/LOCK")?;
            *engine = self.open_once(true)?;
        }
        Ok(())
    }

    fn compact(&mut self, engine: &mut DefaultEngine<MemEnv>) -> Result<()> {
        let compacted = engine.compact_range(&mut self.env, b"", b"");
        if !self.is_refused(&compacted) {
            return compacted;
        }
        self.mend(engine)?;
        engine.compact_range(&mut self.env, b"", b"")
    }

    fn find_once(&mut self, engine: &mut DefaultEngine<MemEnv>, key: &str) -> Result<String> {
        match &engine.get(&mut self.env, key.as_bytes())? {
            None => Ok(String::from_str(self.alloc, "none")?),
            Some(value) => text_of(self.alloc, value.as_slice()),
        }
    }

    fn find(&mut self, engine: &mut DefaultEngine<MemEnv>, key: &str) -> Result<String> {
        let found = self.find_once(engine, key);
        if self.is_refused(&found) {
            return self.find_once(engine, key);
        }
        found
    }

    /// Opens the store, writes these batches, compacts all, and gives back its lock.
    fn live(&mut self, reuses: bool, batches: &[Batch]) -> Result<()> {
        let mut engine = self.open(reuses)?;
        for batch in batches {
            self.write(&mut engine, batch)?;
        }
        self.compact(&mut engine)?;
        engine.abandon(&mut self.env)
    }
}

/// All is found as if no call had been refused; then the trial ends with the refusal, if there was
/// one.
fn assert_found(rt: &impl Abort, mut trial: Trial) -> Result<()> {
    let mut engine = trial.open(true)?;
    for (key, value) in &FOUND {
        assert!(rt; trial.find(&mut engine, *key)?.as_str() == *value);
    }
    engine.abandon(&mut trial.env)?;
    if trial.refused > 0 {
        return Err(Status::from(AllocError));
    }
    Ok(())
}

#[test]
fn refused_calls_made_again(rt: HostRuntime) -> Result<()> {
    let alloc = rt.alloc();
    let mut trial = Trial {
        alloc,
        env: MemEnv::new(alloc),
        refused: 0,
    };
    trial.live(true, &FIRST)?;
    trial.live(false, &SECOND)?;
    assert_found(&rt, trial)
}

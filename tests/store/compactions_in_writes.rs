//! Compactions that a write does once its memtable became a table: those for which the score of a
//! level asks, or else reads.
use super::stores::{DefaultEngine, STORE, buffered, count_tables, one_byte, opened};
use leveldb_base::cmp::DefaultCmp;
use leveldb_base::error::{Result, StatusCode};
use leveldb_env::env::Env;
use leveldb_env::mem_env::MemEnv;
use rusty_leveldb::Snapshot;
use slow_store::read_store;
use std::alloc::Global;
use std::process::Abort;
use support::{answered, damage_file, failed_with};

/// A store that is open, on its device, each write of which makes a table of the memtable.
#[derive(Drop)]
struct Trial {
    alloc: Global,
    env: MemEnv,
    engine: DefaultEngine<MemEnv>,
}

impl Trial {
    fn new(alloc: Global) -> Result<Trial> {
        let mut env = MemEnv::new(alloc);
        let engine = opened(alloc, &mut env, buffered(1))?;
        Ok(Trial { alloc, env, engine })
    }

    fn put(&mut self, value: u8) -> Result<()> {
        self.engine.put(&mut self.env, b"a", &[value])
    }

    /// The one byte of the key's value, now or at a snapshot, `-` for none, `?` for another value.
    fn byte(&mut self, at: Option<Snapshot>) -> Result<u8> {
        let found = match at {
            None => self.engine.get(&mut self.env, b"a")?,
            Some(snapshot) => self.engine.get_at(&mut self.env, snapshot, b"a")?,
        };
        Ok(one_byte(found))
    }

    fn count_tables(&mut self) -> Result<usize> {
        count_tables(self.alloc, &mut self.env)
    }

    /// Whether the files are a store by its definition.
    fn is_whole(&mut self) -> Result<bool> {
        let read = read_store(self.alloc, &mut self.env, &DefaultCmp, STORE);
        Ok(answered(read)?.is_ok())
    }
}

/// Four tables of level 0 ask for a compaction: one table takes their place and that of the one of
/// level 1.
#[test]
fn by_score(rt: HostRuntime) -> Result<()> {
    let mut trial = Trial::new(rt.alloc())?;
    for value in b'1'..=b'6' {
        trial.put(value)?;
    }
    assert!(rt; trial.count_tables()? == 5);
    trial.put(b'7')?;
    assert!(rt; trial.count_tables()? == 2);
    assert!(rt; trial.byte(None)? == b'7' && trial.is_whole()?);
    trial.engine.abandon(&mut trial.env)
}

/// A compaction over a damaged table fails the write whose memtable was full. The same write goes
/// through then.
#[test]
fn over_a_damaged_table(rt: HostRuntime) -> Result<()> {
    let mut trial = Trial::new(rt.alloc())?;
    for value in b'1'..=b'6' {
        trial.put(value)?;
    }
    // The table of level 1.
    damage_file(trial.alloc, &mut trial.env, "000007.ldb", 0)?;
    let mut last = b'6';
    for value in b'7'..=b'9' {
        assert!(rt; failed_with(trial.put(value), StatusCode::Corruption)?);
        assert!(rt; trial.byte(None)? == last);
        trial.put(value)?;
        assert!(rt; trial.byte(None)? == value);
        last = value;
    }
    trial.engine.abandon(&mut trial.env)
}

/// How many tables are left where a key was looked up so often at a snapshot, in four tables,
/// before the next write.
fn tables_after_reads(rt: &impl Abort, alloc: Global, count: usize) -> Result<usize> {
    let mut trial = Trial::new(alloc)?;
    trial.put(b'1')?;
    let first = trial.engine.get_snapshot()?;
    for value in b'2'..=b'5' {
        trial.put(value)?;
    }
    for _ in 0..count {
        assert!(rt; trial.byte(Some(first))? == b'1');
    }
    trial.put(b'6')?;
    let found = [trial.byte(None)?, trial.byte(Some(first))?];
    assert!(rt; found == *b"61" && trial.is_whole()?);
    let tables = trial.count_tables()?;
    trial.engine.abandon(&mut trial.env)?;
    Ok(tables)
}

/// The first table that look-ups go through in vain is compacted after a hundred of them.
#[test]
fn by_reads(rt: HostRuntime) -> Result<()> {
    assert!(rt; tables_after_reads(&rt, rt.alloc(), 99)? == 5);
    assert!(rt; tables_after_reads(&rt, rt.alloc(), 100)? == 2);
    Ok(())
}

/// A key's values are found beside each other's, now and at each snapshot, however often tables are
/// merged.
#[test]
fn many_puts(rt: HostRuntime) -> Result<()> {
    let mut trial = Trial::new(rt.alloc())?;
    let mut held: Vec<(Snapshot, u8)> = Vec::new(rt.alloc());
    for step in 0..100 {
        let value = b'0' + (step % 10) as u8;
        trial.put(value)?;
        if step % 7 == 0 {
            held.push((trial.engine.get_snapshot()?, value))?;
        }
        if step % 21 == 20 {
            let (oldest, _) = held.remove(0);
            trial.engine.release_snapshot(oldest)?;
        }
        assert!(rt; trial.byte(None)? == value, "step {step}");
        for (snapshot, wanted) in held.iter() {
            assert!(rt; trial.byte(Some(*snapshot))? == *wanted, "step {step}");
        }
        let count = trial.count_tables()?;
        assert!(rt; count <= 12, "step {step}: {count}");
    }
    assert!(rt; trial.is_whole()?);
    trial.engine.abandon(&mut trial.env)
}

//! Scripts that look random, of lives with crashes and with calls of the device that fail. Once the store has been opened twice more and all of it
//! compacted, its files have few bytes beside those of the pairs that it shows, whatever happened before: nothing that is obsolete stays for ever.
use super::stores::{DefaultEngine, DefaultOptions, STORE, files_of, opened_db, reopen};
use leveldb_base::error::{Result, StatusCode};
use leveldb_disks::mem_env::{Pick, RecordEnv};
use leveldb_env::env::Env;
use leveldb_env::options::Options;
use leveldb_mem::write_batch::WriteBatch;
use rusty_leveldb::db_impl::Engine;
use std::alloc::Global;
use std::process::Abort;
use support::{Random, is_free};

const KEYS: u64 = 60;

/// The files have at most so many bytes for one of the pairs' keys and values, and so many more. A pair has a tag of 8 bytes and 3 of lengths in its
/// table, and 10 bits in the filter; a table has 200 bytes around its blocks, and the manifest of an opening, with the edits of compactions of all,
/// less than two thousand.
const TIMES: usize = 2;

const MORE: usize = 3000;

/// One compaction of all may leave what is shadowed by a level above; so many bring all of it to one level.
const LEVELS: usize = 7;

/// An opening begins a manifest of its own: one that is used on grows to the size of a table before a new one is begun.
fn with_new_manifest() -> DefaultOptions {
    let mut options = Options::default();
    options.reuse_manifest = false;
    options
}

/// A disk on which scripts run, and what draws them. A crash may change bytes that weren't synced, or not.
#[derive(Drop)]
struct Trial {
    alloc: Global,
    env: RecordEnv,
    random: Random,
    changes_bytes: bool,
    crashes: usize,
    failures: usize,
}

impl Trial {
    fn flip(&mut self) -> bool {
        self.random.below(2) == 0
    }

    /// Small tables and memtables, so that there are many.
    fn options(&mut self) -> DefaultOptions {
        let mut options = Options::default();
        options.write_buffer_size = if self.flip() { 500 } else { 3000 };
        options.max_file_size = if self.flip() { 400 } else { 2500 };
        options.reuse_logs = self.flip();
        options.reuse_manifest = self.flip();
        options
    }

    fn key(&mut self) -> Result<Vec<u8>> {
        let number = self.random.below(KEYS);
        let mut key = Vec::from_slice(self.alloc, b"k")?;
        key.push(b'0' + (number / 10) as u8)?;
        key.push(b'0' + (number % 10) as u8)?;
        Ok(key)
    }

    fn batch(&mut self) -> Result<WriteBatch> {
        let mut batch = WriteBatch::new(self.alloc)?;
        for _ in 0..1 + self.random.below(4) {
            let key = self.key()?;
            if self.random.below(3) == 0 {
                batch.delete(&key)?;
            } else {
                let size = self.random.below(300) as usize;
                let value = vec![in self.alloc; b'v'; size]?;
                batch.put(&key, &value)?;
            }
        }
        Ok(batch)
    }

    fn act(&mut self, engine: &mut DefaultEngine<RecordEnv>) -> Result<()> {
        match self.random.below(20) {
            0 => {
                let (from, to) = (self.key()?, self.key()?);
                engine.compact_range(&mut self.env, &from, &to)
            }
            1 => engine.flush(&mut self.env),
            _ => {
                let batch = self.batch()?;
                let sync = self.random.below(5) == 0;
                engine.write(&mut self.env, batch, sync)
            }
        }
    }

    /// Opens the store and makes changes, until one is refused.
    fn change(&mut self) -> Result<()> {
        let options = self.options();
        let mut engine = Engine::open(self.alloc, STORE, &mut self.env, options)?;
        for _ in 0..10 + self.random.below(40) {
            self.act(&mut engine)?;
        }
        engine.abandon(&mut self.env)
    }

    /// What isn't durable of a file after a crash: nothing, all, a part, zeros, or all with a wrong byte.
    fn change_tail(&mut self, tail: &mut Vec<u8>) {
        let part = self.random.below(tail.len() as u64 + 1) as usize;
        match self.random.below(5) {
            0 => tail.clear(),
            1 => {}
            2 => tail.truncate(part),
            3 => tail.fill(0),
            _ => {
                if let (true, Some(byte)) = (self.changes_bytes, tail.last_mut()) {
                    *byte = byte.wrapping_add(1);
                }
            }
        }
    }

    /// A crash at a moment from this one on.
    fn crash(&mut self, first: u64) -> Result<()> {
        let moment = first + self.random.below(self.env.moment() - first + 1);
        let after = self.flip();
        let mut tails = self.env.tails(self.alloc, moment, after)?;
        for (_, tail) in &mut tails {
            self.change_tail(tail);
        }
        self.env = self
            .env
            .disk_at(self.alloc, moment, &Pick { tails, after })?;
        self.crashes += 1;
        Ok(())
    }

    /// A life in which a call of the device may fail, and which may end in a crash.
    fn live(&mut self, rt: &impl Abort) -> Result<()> {
        let first = self.env.moment();
        if self.flip() {
            let nth = 1 + self.random.below(150);
            let done = self.flip();
            self.env.fail(nth, done);
        }
        if let Err(status) = self.change() {
            assert!(rt; status.code == StatusCode::IOError, "{status:?}");
            self.failures += 1;
        }
        self.env.fail(0, false);
        if self.flip() {
            return self.crash(first);
        }
        if !is_free(&mut self.env)? {
            self.env.unlock("db/LOCK")?;
        }
        Ok(())
    }

    /// Compacts all, and returns how many bytes the pairs have that the store shows, and how many its files, but for damaged ones that were set aside.
    fn measure(&mut self) -> Result<(usize, usize)> {
        let mut live = 0;
        let mut db = opened_db(self.alloc, &mut self.env, with_new_manifest())?;
        for _ in 0..LEVELS {
            db.compact_range(b"", b"")?;
        }
        let mut it = db.new_iter()?;
        while it.advance()? {
            if let Some((key, value)) = it.current() {
                live += key.len() + value.len();
            }
        }
        drop(it);
        db.abandon()?;
        let mut bytes = 0;
        for name in &self.env.children(self.alloc, STORE)? {
            if !name.as_str().ends_with(".damaged") {
                let path = format!(in self.alloc; "{STORE}/{name}")?;
                bytes += self.env.size_of(&path)?;
            }
        }
        Ok((live, bytes))
    }
}

/// A script of some lives. Returns how many crashes and failures there were.
fn try_script(
    rt: &impl Abort,
    alloc: Global,
    seed: u64,
    changes_bytes: bool,
) -> Result<(usize, usize)> {
    let mut trial = Trial {
        alloc,
        env: RecordEnv::new(alloc),
        random: Random(seed),
        changes_bytes,
        crashes: 0,
        failures: 0,
    };
    for _ in 0..2 + trial.random.below(4) {
        trial.live(rt)?;
    }
    reopen(alloc, &mut trial.env, with_new_manifest())?;
    reopen(alloc, &mut trial.env, with_new_manifest())?;
    let (live, bytes) = trial.measure()?;
    let files = files_of(alloc, &mut trial.env)?;
    assert!(rt;
        bytes <= TIMES * live + MORE,
        "seed {seed}: {bytes} bytes of files, {live} of pairs: {files}"
    );
    Ok((trial.crashes, trial.failures))
}

/// So many scripts, from a seed on. Returns how many crashes and failures there were.
pub fn try_scripts(
    rt: &impl Abort,
    alloc: Global,
    (first, count): (u64, u64),
    changes_bytes: bool,
) -> Result<(usize, usize)> {
    let (mut crashes, mut failures) = (0, 0);
    for seed in first..first + count {
        let (more_crashes, more_failures) = try_script(rt, alloc, seed, changes_bytes)?;
        crashes += more_crashes;
        failures += more_failures;
    }
    Ok((crashes, failures))
}

#[test]
fn files_of_some_scripts(rt: HostRuntime) -> Result<()> {
    let (crashes, failures) = try_scripts(&rt, rt.alloc(), (1000, 40), false)?;
    assert!(rt; crashes > 40 && failures > 20, "{crashes} {failures}");
    Ok(())
}

//! Compactions for which a version asks, by its score or by reads, after each switch of the log:
//! which tables are left, and what is found.
use super::stores::{DefaultOptions, STORE, count_tables, one_byte};
use leveldb_base::cmp::DefaultCmp;
use leveldb_base::error::Result;
use leveldb_disks::mem_env::RecordEnv;
use leveldb_env::env::Env;
use leveldb_env::filter::BloomPolicy;
use leveldb_env::options::Options;
use leveldb_mem::write_batch::WriteBatch;
use leveldb_store::open_store::OpenStore;
use leveldb_version::table_cache::TableCache;
use slow_store::{has_levels, levels_of, read_store};
use std::alloc::Global;
use std::process::Abort;
use support::answered;

/// An open store without an engine, its device, and the smallest number at which it is read.
#[derive(Drop)]
struct Trial {
    alloc: Global,
    env: RecordEnv,
    options: DefaultOptions,
    store: OpenStore<RecordEnv, DefaultCmp>,
    tables: TableCache<RecordEnv, DefaultCmp, BloomPolicy>,
    held: Option<u64>,
}

impl Trial {
    fn open(alloc: Global, env: RecordEnv, options: DefaultOptions) -> Result<Trial> {
        let mut env = env;
        let mut tables = TableCache::new(alloc, STORE, &options)?;
        let store = OpenStore::open(alloc, &mut env, STORE, &options)?;
        store.tidy_up(&mut env, &mut tables, &mut None)?;
        Ok(Trial {
            alloc,
            env,
            options,
            store,
            tables,
            held: None,
        })
    }

    fn compact(&mut self) -> Result<()> {
        let smallest = self.held.unwrap_or(self.store.last_sequence());
        let removal = self.store.compact_if_asked(
            &mut self.env,
            &self.options,
            &mut self.tables,
            smallest,
            &mut None,
        )?;
        removal.unwrap_or(Ok(()))
    }

    /// Puts a pair. Where the memtable is full it becomes a table, and then the compaction is done
    /// for which the version asks.
    fn put(&mut self, key: &[u8], value: &[u8]) -> Result<()> {
        let switches = self.store.is_full(self.options.write_buffer_size);
        self.store
            .make_room(&mut self.env, &self.options, &mut self.tables, &mut None)?
            .unwrap_or(Ok(()))?;
        if switches {
            self.compact()?;
        }
        let mut batch = WriteBatch::new(self.alloc)?;
        batch.put(key, value)?;
        self.store.write_batch(&mut self.env, batch, false)
    }

    /// The one byte of the key's value at a number, `-` for none, `?` for another value.
    fn byte_at(&mut self, sequence: u64, key: &[u8]) -> Result<u8> {
        let found = self.store.get(
            &mut self.env,
            &self.options,
            &mut self.tables,
            sequence,
            key,
        )?;
        Ok(one_byte(found))
    }

    fn byte_of(&mut self, key: &[u8]) -> Result<u8> {
        self.byte_at(self.store.last_sequence(), key)
    }

    fn count_tables(&mut self) -> Result<usize> {
        count_tables(self.alloc, &mut self.env)
    }

    fn has_levels(&mut self, wanted: &str) -> Result<bool> {
        has_levels(self.alloc, &mut self.env, STORE, wanted)
    }

    fn is_whole(&mut self) -> Result<bool> {
        let read = read_store(self.alloc, &mut self.env, &DefaultCmp, STORE);
        Ok(answered(read)?.is_ok())
    }
}

fn small() -> DefaultOptions {
    let mut options = Options::default();
    options.write_buffer_size = 1;
    options
}

/// Four tables of level 0 ask for a compaction, which takes them and the one of level 1.
#[test]
fn by_score(rt: HostRuntime) -> Result<()> {
    let mut trial = Trial::open(rt.alloc(), RecordEnv::new(rt.alloc()), small())?;
    for value in b'1'..=b'6' {
        trial.put(b"a", &[value])?;
    }
    assert!(rt; trial.count_tables()? == 5);
    trial.put(b"a", b"7")?;
    assert!(rt; trial.count_tables()? == 2);
    assert!(rt;
        trial.has_levels(
            "level 1: 1 files, 177 bytes ([(16, 177)]); level 2: 1 files, 177 bytes ([(5, 177)]); ",
        )?
    );
    assert!(rt; trial.byte_of(b"a")? == b'7' && trial.is_whole()?);
    Ok(())
}

/// How many tables are left where a key is looked up so often at a snapshot, in four tables.
fn tables_after_reads(rt: &impl Abort, alloc: Global, count: usize) -> Result<usize> {
    let mut trial = Trial::open(alloc, RecordEnv::new(alloc), small())?;
    trial.put(b"a", b"1")?;
    trial.held = Some(1);
    for value in b'2'..=b'5' {
        trial.put(b"a", &[value])?;
    }
    for _ in 0..count {
        assert!(rt; trial.byte_at(1, b"a")? == b'1');
    }
    trial.put(b"a", b"6")?;
    let found = [trial.byte_of(b"a")?, trial.byte_at(1, b"a")?];
    assert!(rt; found == *b"61" && trial.is_whole()?);
    trial.count_tables()
}

/// The first table that look-ups go through is compacted after a hundred of them.
#[test]
fn by_reads(rt: HostRuntime) -> Result<()> {
    assert!(rt; tables_after_reads(&rt, rt.alloc(), 99)? == 5);
    assert!(rt; tables_after_reads(&rt, rt.alloc(), 100)? == 2);
    Ok(())
}

/// A disk with so many tables of level 0, each of one key: an opening makes one of what the last
/// log has.
fn with_tables(alloc: Global, count: u8) -> Result<RecordEnv> {
    let mut env = RecordEnv::new(alloc);
    for letter in b'a'..b'a' + count {
        let mut options = Options::default();
        options.reuse_logs = false;
        let mut trial = Trial::open(alloc, env, options)?;
        trial.put(&[letter], b"1")?;
        env = trial.env;
    }
    Ok(env)
}

/// A table that overlaps no other moves to the next level as it is, with one edit and no other
/// file.
#[test]
fn a_table_that_moves(rt: HostRuntime) -> Result<()> {
    let alloc = rt.alloc();
    let env = with_tables(alloc, 4)?;
    let mut options = Options::default();
    options.reuse_logs = false;
    let mut trial = Trial::open(alloc, env, options)?;
    let levels = levels_of(alloc, &mut trial.env, STORE)?;
    let wanted = "level 0: 4 files, 708 bytes ([(4, 177), (7, 177), (10, 177), (13, 177)]); ";
    assert!(rt; levels.as_str() == wanted, "{levels}");
    let before = trial.env.moment();
    trial.compact()?;
    // The append and the sync of the manifest, and the listing of the folder.
    let calls = (trial.env.moment() - before) / 2;
    assert!(rt; calls == 3, "{calls}");
    assert!(rt;
        trial.has_levels(
            "level 0: 3 files, 531 bytes ([(7, 177), (10, 177), (13, 177)]); level 1: 1 files, 177 bytes ([(4, 177)]); "
        )?
    );
    let before = trial.env.moment();
    trial.compact()?;
    assert!(rt; trial.env.moment() == before);
    for letter in b"abcd" {
        assert!(rt; trial.byte_of(&[*letter])? == b'1');
    }
    assert!(rt; trial.is_whole()?);
    Ok(())
}

/// Scores and reads over many puts of few keys, with small tables: no more than three tables stay
/// in level 0 and nothing is lost.
#[test]
fn many_puts(rt: HostRuntime) -> Result<()> {
    let mut options = small();
    options.max_file_size = 300;
    let mut trial = Trial::open(rt.alloc(), RecordEnv::new(rt.alloc()), options)?;
    let mut values = [b'-'; 7];
    for step in 0..200 {
        let key = step * 5 % 7;
        let value = b'0' + (step % 10) as u8;
        trial.put(&[b'a' + key as u8], &[value])?;
        values[key] = value;
        if step % 20 == 0 {
            assert!(rt; trial.is_whole()?, "step {step}");
        }
    }
    for (key, value) in values.iter().enumerate() {
        assert!(rt; trial.byte_of(&[b'a' + key as u8])? == *value);
    }
    let count = trial.count_tables()?;
    assert!(rt; count <= 17, "{count}");
    Ok(())
}

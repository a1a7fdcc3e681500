//! Tables made of memtables: the calls that they take, what they hold, and what is left where one
//! fails.

use leveldb_base::cmp::{DefaultCmp, InternalKeyCmp};
use leveldb_base::error::{Result, StatusCode};
use leveldb_base::key_types::ValueType;
use leveldb_base::types::{FileMetaData, LdbIterator};
use leveldb_disks::mem_env::{Pick, RecordEnv};
use leveldb_env::env::Env;
use leveldb_env::env::whole_files::read_file;
use leveldb_env::filter::{BloomPolicy, InternalFilterPolicy};
use leveldb_env::options::Options;
use leveldb_mem::memtable::{MemTable, MemtableIterator};
use leveldb_table::cache::Cache;
use leveldb_table::table_reader::{Table, TableIterator};
use rusty_leveldb::db_impl::build_memtable;
use std::alloc::Global;
use std::process::Abort;
use support::{Refusing, failed_with};

type TablePairs<'a> = TableIterator<
    'a,
    RecordEnv,
    InternalKeyCmp<DefaultCmp>,
    InternalFilterPolicy<BloomPolicy>,
>;

const PATH: &str = "db/000005.ldb";

const BESIDE: &str = "db/000003.log";

/// A value for the key `a` at the sequence 1.
const ONE: &[u8] = b"a\x01\x01\0\0\0\0\0\0";

/// Keys with several entries, deletions, an empty key and an empty value.
const ENTRIES: [(u64, ValueType, &[u8], &[u8]); 7] = [
    (1, ValueType::TypeValue, b"b", b"1"),
    (2, ValueType::TypeValue, b"a", b""),
    (3, ValueType::TypeDeletion, b"b", b""),
    (4, ValueType::TypeValue, b"", b"empty"),
    (5, ValueType::TypeValue, b"b", b"5"),
    (6, ValueType::TypeValue, b"\xff\xff", b"6"),
    (7, ValueType::TypeDeletion, b"never", b""),
];

fn one_entry(alloc: Global) -> Result<MemTable<DefaultCmp>> {
    let mut memtable = MemTable::new(alloc, DefaultCmp);
    memtable.add(1, ValueType::TypeValue, b"a", b"1")?;
    Ok(memtable)
}

fn seven_entries(alloc: Global) -> Result<MemTable<DefaultCmp>> {
    let mut memtable = MemTable::new(alloc, DefaultCmp);
    for (sequence, kind, key, value) in &ENTRIES {
        memtable.add(*sequence, *kind, key, value)?;
    }
    Ok(memtable)
}

/// Options under which each block has few entries.
fn small_blocks() -> Options<DefaultCmp, BloomPolicy> {
    let mut options = Options::default();
    options.block_size = 20;
    options
}

fn build(
    alloc: Global,
    env: &mut RecordEnv,
    options: &Options<DefaultCmp, BloomPolicy>,
    memtable: &MemTable<DefaultCmp>,
) -> Result<FileMetaData> {
    build_memtable(alloc, env, "db", options, memtable, 5)
}

/// Whether both have the same pairs, `count` of them, in the same order.
fn are_alike(
    found: &mut TablePairs<'_>,
    wanted: &mut MemtableIterator<'_, DefaultCmp>,
    count: usize,
) -> Result<bool> {
    for _ in 0..=count {
        let there = found.advance()?;
        if there != wanted.advance()? || found.current() != wanted.current() {
            return Ok(false);
        }
    }
    Ok(!found.valid() && !wanted.valid())
}

/// Whether the file is a table of the memtable's pairs, in their order.
fn is_table_of(
    alloc: Global,
    env: &mut RecordEnv,
    options: &Options<DefaultCmp, BloomPolicy>,
    size: usize,
    memtable: &MemTable<DefaultCmp>,
) -> Result<bool> {
    let file = env.open_random_access_file(PATH)?;
    let mut cache = Cache::new(alloc, 4)?;
    let table = Table::new(alloc, options, env, &mut cache, file, size)?;
    let mut found = table.iter(alloc, env, &mut cache, &options.compressor_list)?;
    are_alike(&mut found, &mut memtable.iter(), memtable.len())
}

/// Builds a table by so many calls, asserts that it has the memtable's pairs from its first key to
/// its last, and returns its size.
fn build_whole(
    rt: &impl Abort,
    alloc: Global,
    env: &mut RecordEnv,
    options: &Options<DefaultCmp, BloomPolicy>,
    memtable: &MemTable<DefaultCmp>,
    keys: (&[u8], &[u8]),
    calls: u64,
) -> Result<usize> {
    let end = env.moment().saturating_add(calls).saturating_add(calls);
    let file = build(alloc, env, options, memtable)?;
    assert!(rt; env.moment() == end && file.num == 5);
    assert!(rt; file.smallest.as_slice() == keys.0 && file.largest.as_slice() == keys.1);
    assert!(rt; is_table_of(alloc, env, options, file.size, memtable)?);
    Ok(file.size)
}

/// A creation, an append of each of the four blocks and of the footer, and a sync.
const ONE_CALLS: u64 = 7;

/// One entry is one table of 177 bytes, made by seven calls, so at 14 moments.
#[test]
fn one_entry_takes_seven_calls(rt: HostRuntime) -> Result<()> {
    let alloc = rt.alloc();
    let options = Options::default();
    let mut env = RecordEnv::new(alloc);
    let size = build_whole(
        &rt,
        alloc,
        &mut env,
        &options,
        &one_entry(alloc)?,
        (ONE, ONE),
        ONE_CALLS,
    )?;
    assert!(rt; size == 177);
    assert!(rt; read_file(alloc, &mut env, PATH)?.len() == 177);
    Ok(())
}

#[test]
fn no_entry_takes_no_call(rt: HostRuntime) -> Result<()> {
    let alloc = rt.alloc();
    let mut env = RecordEnv::new(alloc);
    let memtable = MemTable::new(alloc, DefaultCmp);
    let file = build(alloc, &mut env, &Options::default(), &memtable)?;
    assert!(rt; env.moment() == 0 && file.num == 5 && file.size == 0);
    assert!(rt; file.smallest.is_empty() && file.largest.is_empty());
    assert!(rt; !env.exists(PATH)?);
    Ok(())
}

/// The first and the last key of seven entries.
const SEVEN: (&[u8], &[u8]) = (b"\x01\x04\0\0\0\0\0\0", b"\xff\xff\x01\x06\0\0\0\0\0\0");

/// The entries are in five blocks.
const SEVEN_CALLS: u64 = 11;

/// A table of several blocks has all entries, deletions among them, and replaces what was there.
#[test]
fn all_entries_are_found(rt: HostRuntime) -> Result<()> {
    let alloc = rt.alloc();
    let options = small_blocks();
    let mut env = RecordEnv::new(alloc);
    build_whole(
        &rt,
        alloc,
        &mut env,
        &options,
        &one_entry(alloc)?,
        (ONE, ONE),
        ONE_CALLS,
    )?;
    build_whole(
        &rt,
        alloc,
        &mut env,
        &options,
        &seven_entries(alloc)?,
        SEVEN,
        SEVEN_CALLS,
    )?;
    Ok(())
}

/// The disk that a crash leaves of what is durable.
fn durable_disk(alloc: Global, env: &RecordEnv) -> Result<RecordEnv> {
    let nothing = Pick {
        tails: Vec::new(alloc),
        after: false,
    };
    env.disk_at(alloc, env.moment(), &nothing)
}

/// A crash after it returned leaves the whole table, whatever is lost that wasn't synced.
#[test]
fn a_crash_leaves_the_table(rt: HostRuntime) -> Result<()> {
    let alloc = rt.alloc();
    let options = small_blocks();
    let mut env = RecordEnv::new(alloc);
    let memtable = seven_entries(alloc)?;
    let size = build_whole(
        &rt,
        alloc,
        &mut env,
        &options,
        &memtable,
        SEVEN,
        SEVEN_CALLS,
    )?;
    assert!(rt; env.tails(alloc, env.moment(), false)?.is_empty());
    let mut left = durable_disk(alloc, &env)?;
    assert!(rt; is_table_of(alloc, &mut left, &options, size, &memtable)?);
    Ok(())
}

/// A file beside the table's, whose bytes aren't durable.
fn with_log(alloc: Global) -> Result<RecordEnv> {
    let mut env = RecordEnv::new(alloc);
    let mut file = env.open_writable_file(BESIDE)?;
    env.append(&mut file, b"log")?;
    Ok(env)
}

/// Whether a name in the store's folder is the table's or the log's.
fn has_no_other(alloc: Global, env: &mut RecordEnv) -> Result<bool> {
    for name in &env.children(alloc, "db")? {
        if name.as_str() != "000005.ldb" && name.as_str() != "000003.log" {
            return Ok(false);
        }
    }
    Ok(true)
}

fn has_log(alloc: Global, env: &mut RecordEnv) -> Result<bool> {
    Ok(read_file(alloc, env, BESIDE)?.as_slice() == b"log".as_slice())
}

/// Whether the nth call's failure is the device's, after which no call is made, and at most the
/// table's file has changed.
fn fails_at(alloc: Global, nth: u64, done: bool) -> Result<bool> {
    let mut env = with_log(alloc)?;
    let before = env.moment();
    env.fail(nth, done);
    let built = build(alloc, &mut env, &small_blocks(), &seven_entries(alloc)?);
    if !failed_with(built, StatusCode::IOError)? {
        return Ok(false);
    }
    let moment = before.saturating_add(nth).saturating_add(nth);
    Ok(env.moment() == moment && has_no_other(alloc, &mut env)? && has_log(alloc, &mut env)?)
}

#[test]
fn each_failure_leaves_only_the_file(rt: HostRuntime) -> Result<()> {
    for nth in 1..=SEVEN_CALLS {
        assert!(rt; fails_at(rt.alloc(), nth, false)?, "call {nth}");
        assert!(rt;
            fails_at(rt.alloc(), nth, true)?,
            "call {nth}, with its change"
        );
    }
    Ok(())
}

/// Whether a table of one entry, made with these options, fails with this code once its file is
/// created, and leaves that empty.
fn fails_after_the_creation(
    alloc: Global,
    options: &Options<DefaultCmp, BloomPolicy>,
    code: StatusCode,
) -> Result<bool> {
    let mut env = RecordEnv::new(alloc);
    let built = build(alloc, &mut env, options, &one_entry(alloc)?);
    if !failed_with(built, code)? || env.moment() != 2 {
        return Ok(false);
    }
    Ok(env.size_of(PATH)? == 0)
}

/// Where the compressor fails, or none is set under the id, nothing is appended.
#[test]
fn a_compressor_fails_after_the_creation(rt: HostRuntime) -> Result<()> {
    let mut options = small_blocks();
    options.compressor = 9;
    assert!(rt; fails_after_the_creation(rt.alloc(), &options, StatusCode::NotSupported)?);
    let refusing = Box::new(rt.alloc(), Refusing)?;
    options
        .compressor_list
        .set_with_id(rt.alloc(), 9, refusing)?;
    assert!(rt; fails_after_the_creation(rt.alloc(), &options, StatusCode::CompressionError)?);
    Ok(())
}

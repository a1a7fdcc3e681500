//! Tables that pairs go to one after another: where they are cut, beside a plain list of cuts, what
//! they hold, and what is left where a call fails.

use bytes::Bytes;
use leveldb_base::cmp::{DefaultCmp, InternalKeyCmp};
use leveldb_base::error::{Result, StatusCode};
use leveldb_base::key_types::{ValueType, tag_bytes};
use leveldb_base::types::{FileMetaData, LdbIterator};
use leveldb_disks::mem_env::{Pick, RecordEnv};
use leveldb_env::env::Env;
use leveldb_env::env::whole_files::read_file;
use leveldb_env::filter::{BloomPolicy, InternalFilterPolicy};
use leveldb_env::options::Options;
use leveldb_mem::memtable::MemTable;
use leveldb_store::outputs::Outputs;
use leveldb_table::cache::Cache;
use leveldb_table::table_builder::builder_core::BuilderCore;
use leveldb_table::table_reader::Table;
use leveldb_version_set::version_set::VersionSet;
use rusty_leveldb::db_impl::build_memtable;
use std::alloc::Global;
use std::process::Abort;
use support::{Random, Refusing, failed_with};

pub type SmallOptions = Options<DefaultCmp, BloomPolicy>;

type TestOutputs = Outputs<RecordEnv, DefaultCmp, BloomPolicy>;

const BESIDE: &str = "db/000001.log";

/// The number of the first table: a new version set gives it next.
pub const FIRST: u64 = 2;

/// A pair of an internal key and a value, and whether the table before it is told to end.
#[derive(Drop)]
pub struct Put {
    pub key: Vec<u8>,
    pub value: Vec<u8>,
    pub told: bool,
}

/// An internal key.
pub fn key_of(alloc: Global, user: &[u8], sequence: u64, kind: ValueType) -> Result<Vec<u8>> {
    let mut key = Vec::new(alloc);
    key.extend_from_slice(user)?;
    key.extend_from_slice(&tag_bytes(sequence, kind))?;
    Ok(key)
}

pub fn user_of(key: &[u8]) -> &[u8] {
    &key[..key.len() - 8]
}

/// Options under which blocks and tables are small.
pub fn small(max_file_size: usize) -> SmallOptions {
    let mut options = Options::default();
    options.block_size = 60;
    options.max_file_size = max_file_size;
    options
}

/// Pairs of up to four entries for each of some user keys.
fn puts(alloc: Global, random: &mut Random, users: u8) -> Result<Vec<Put>> {
    let mut puts = Vec::new(alloc);
    for user in 0..users {
        for version in 0..random.below(5) {
            let kind = if random.below(3) == 0 {
                ValueType::TypeDeletion
            } else {
                ValueType::TypeValue
            };
            let mut value = Vec::new(alloc);
            for byte in 0..random.below(30) {
                value.push(byte as u8)?;
            }
            puts.push(Put {
                key: key_of(alloc, &[user / 7, user % 7], 9 - version, kind)?,
                value,
                told: random.below(20) == 0,
            })?;
        }
    }
    Ok(puts)
}

fn new_core(
    alloc: Global,
    options: &SmallOptions,
) -> BuilderCore<InternalKeyCmp<DefaultCmp>, InternalFilterPolicy<BloomPolicy>> {
    let policy = InternalFilterPolicy::new(options.filter_policy);
    BuilderCore::under(alloc, InternalKeyCmp(options.cmp), policy, options)
}

/// Where each table begins: at the first pair, and where the user key changes once the table before
/// is past its size or told to end.
pub fn plain_cuts(alloc: Global, options: &SmallOptions, puts: &[Put]) -> Result<Vec<usize>> {
    let mut begins = Vec::new(alloc);
    let mut sink = Vec::new(alloc);
    let mut core = new_core(alloc, options);
    let mut told = false;
    for (at, put) in puts.iter().enumerate() {
        let changes = at > 0 && user_of(puts[at - 1].key.as_slice()) != user_of(put.key.as_slice());
        told = at > 0 && (told || put.told);
        if at == 0 || changes && (told || core.size_estimate() > options.max_file_size) {
            begins.push(at)?;
            sink = Vec::new(alloc);
            core = new_core(alloc, options);
            told = false;
        }
        core.add(
            &mut sink,
            &options.compressor_list,
            put.key.as_slice(),
            put.value.as_slice(),
        )?;
    }
    Ok(begins)
}

pub fn new_set(alloc: Global) -> Result<VersionSet<RecordEnv, DefaultCmp>> {
    VersionSet::new(alloc, "db", &DefaultCmp)
}

fn write_all(
    alloc: Global,
    env: &mut RecordEnv,
    versions: &mut VersionSet<RecordEnv, DefaultCmp>,
    options: &SmallOptions,
    puts: &[Put],
) -> Result<Vec<FileMetaData>> {
    let mut outputs = TestOutputs::new(alloc);
    for put in puts {
        outputs.end_table(put.told);
        outputs.put(
            env,
            versions,
            "db",
            options,
            put.key.as_slice(),
            put.value.as_slice(),
        )?;
    }
    outputs.finish(env, options)
}

pub fn path_of(alloc: Global, number: u64) -> Result<String> {
    Ok(format!(in alloc; "db/{number:06}.ldb")?)
}

/// The pairs of a table.
pub fn pairs_of<E: Env>(
    alloc: Global,
    env: &mut E,
    options: &SmallOptions,
    file: &FileMetaData,
) -> Result<Vec<(Bytes, Bytes)>> {
    let open = env.open_random_access_file(&path_of(alloc, file.num)?)?;
    let mut cache = Cache::new(alloc, 4)?;
    let table = Table::new(alloc, options, env, &mut cache, open, file.size)?;
    let mut walk = table.iter(alloc, env, &mut cache, &options.compressor_list)?;
    let mut pairs = Vec::new(alloc);
    while walk.advance()? {
        let Some((key, value)) = walk.current() else {
            break;
        };
        pairs.push((
            Bytes::copy_from_slice(alloc, key)?,
            Bytes::copy_from_slice(alloc, value)?,
        ))?;
    }
    Ok(pairs)
}

/// Whether the file is the table of these pairs, its metadata included.
fn is_table_of(
    alloc: Global,
    env: &mut RecordEnv,
    options: &SmallOptions,
    file: &FileMetaData,
    puts: &[Put],
) -> Result<bool> {
    let pairs = pairs_of(alloc, env, options, file)?;
    if pairs.len() != puts.len() || env.size_of(&path_of(alloc, file.num)?)? != file.size {
        return Ok(false);
    }
    for (pair, put) in pairs.iter().zip(puts.iter()) {
        if pair.0.as_slice() != put.key.as_slice() || pair.1.as_slice() != put.value.as_slice() {
            return Ok(false);
        }
    }
    Ok(
        file.smallest.as_slice() == puts[0].key.as_slice()
            && file.largest.as_slice() == puts[puts.len() - 1].key.as_slice()
            && file.allowed_seeks == 0,
    )
}

/// Asserts that the tables are cut where the plain list has it, and returns how many there are.
fn compare(rt: &impl Abort, alloc: Global, options: &SmallOptions, puts: &[Put]) -> Result<usize> {
    let mut env = RecordEnv::new(alloc);
    let mut versions = new_set(alloc)?;
    let files = write_all(alloc, &mut env, &mut versions, options, puts)?;
    let begins = plain_cuts(alloc, options, puts)?;
    assert!(rt; files.len() == begins.len());
    assert!(rt; env.tails(alloc, env.moment(), false)?.is_empty());
    for (at, file) in files.iter().enumerate() {
        let end = begins.as_slice().get(at + 1).copied().unwrap_or(puts.len());
        assert!(rt; file.num == FIRST + at as u64);
        assert!(rt; is_table_of(alloc, &mut env, options, file, &puts[begins[at]..end])?);
    }
    Ok(files.len())
}

#[test]
fn tables_are_cut_as_a_plain_list_says(rt: HostRuntime) -> Result<()> {
    let alloc = rt.alloc();
    let mut random = Random(1);
    let mut tables = 0;
    for round in 0..60 {
        let puts = puts(alloc, &mut random, 40)?;
        let options = small([1, 150, 400, 3000][round % 4]);
        tables += compare(&rt, alloc, &options, puts.as_slice())?;
    }
    assert!(rt; tables > 300, "{tables} tables");
    Ok(())
}

/// No pair makes no table, and takes no number and no call.
#[test]
fn no_pair_is_no_table(rt: HostRuntime) -> Result<()> {
    let alloc = rt.alloc();
    let mut env = RecordEnv::new(alloc);
    let mut versions = new_set(alloc)?;
    let files = write_all(alloc, &mut env, &mut versions, &small(1), &[])?;
    assert!(rt; files.is_empty() && env.moment() == 0);
    assert!(rt; versions.new_file_number()? == FIRST);
    Ok(())
}

/// Entries that aren't cut become the file that the table of a memtable of them is.
#[test]
fn one_table_is_that_of_a_memtable(rt: HostRuntime) -> Result<()> {
    let alloc = rt.alloc();
    let options = small(1 << 20);
    let mut env = RecordEnv::new(alloc);
    let mut versions = new_set(alloc)?;
    let mut memtable = MemTable::new(alloc, DefaultCmp);
    for at in 0..50u64 {
        let user = [(at * 7 % 23) as u8];
        memtable.add(at + 1, ValueType::TypeValue, &user, &[at as u8; 20])?;
    }
    let mut outputs = TestOutputs::new(alloc);
    let mut walk = memtable.iter();
    while walk.advance()? {
        let Some((key, value)) = walk.current() else {
            break;
        };
        outputs.put(&mut env, &mut versions, "db", &options, key, value)?;
    }
    let files = outputs.finish(&mut env, &options)?;
    let built = build_memtable(alloc, &mut env, "db", &options, &memtable, 9)?;
    assert!(rt; files.len() == 1 && files[0].size == built.size);
    assert!(rt; files[0].smallest == built.smallest && files[0].largest == built.largest);
    let one = read_file(alloc, &mut env, &path_of(alloc, FIRST)?)?;
    let other = read_file(alloc, &mut env, &path_of(alloc, 9)?)?;
    assert!(rt; one.as_slice() == other.as_slice());
    Ok(())
}

/// A file beside the tables', whose bytes aren't durable.
pub fn with_log(alloc: Global) -> Result<RecordEnv> {
    let mut env = RecordEnv::new(alloc);
    let mut file = env.open_writable_file(BESIDE)?;
    env.append(&mut file, b"log")?;
    Ok(env)
}

/// Whether each name in the store's folder is the log's or that of a table of a number that was
/// given, and the log is as it was.
pub fn changes_only_tables(
    alloc: Global,
    env: &mut RecordEnv,
    versions: &mut VersionSet<RecordEnv, DefaultCmp>,
) -> Result<bool> {
    let next = versions.new_file_number()?;
    let mut known = Vec::new(alloc);
    for number in FIRST..next {
        known.push(path_of(alloc, number)?)?;
    }
    for name in &env.children(alloc, "db")? {
        let path = format!(in alloc; "db/{name}")?;
        if path.as_str() != BESIDE && !known.iter().any(|it| it.as_str() == path.as_str()) {
            return Ok(false);
        }
    }
    Ok(read_file(alloc, env, BESIDE)?.as_slice() == b"log".as_slice())
}

/// Whether the nth call's failure is the device's, after which no call is made, and at most tables
/// of given numbers have changed.
fn fails_at(alloc: Global, puts: &[Put], nth: u64, done: bool) -> Result<bool> {
    let mut env = with_log(alloc)?;
    let mut versions = new_set(alloc)?;
    let before = env.moment();
    env.fail(nth, done);
    let written = write_all(alloc, &mut env, &mut versions, &small(150), puts);
    if !failed_with(written, StatusCode::IOError)? {
        return Ok(false);
    }
    Ok(env.moment() == before + nth + nth && changes_only_tables(alloc, &mut env, &mut versions)?)
}

#[test]
fn each_failure_leaves_tables_without_a_name(rt: HostRuntime) -> Result<()> {
    let alloc = rt.alloc();
    let puts = puts(alloc, &mut Random(5), 20)?;
    let mut env = with_log(alloc)?;
    let before = env.moment();
    let mut versions = new_set(alloc)?;
    let files = write_all(alloc, &mut env, &mut versions, &small(150), puts.as_slice())?;
    let calls = (env.moment() - before) / 2;
    assert!(rt; files.len() > 3 && calls > 30);
    for nth in 1..=calls {
        for done in [false, true] {
            assert!(rt;
                fails_at(alloc, puts.as_slice(), nth, done)?,
                "call {nth} {done}"
            );
        }
    }
    Ok(())
}

/// A crash once they are finished leaves all tables, whatever is lost that wasn't synced.
#[test]
fn finished_tables_are_kept(rt: HostRuntime) -> Result<()> {
    let alloc = rt.alloc();
    let options = small(150);
    let puts = puts(alloc, &mut Random(8), 30)?;
    let mut env = RecordEnv::new(alloc);
    let mut versions = new_set(alloc)?;
    let files = write_all(alloc, &mut env, &mut versions, &options, puts.as_slice())?;
    let nothing = Pick {
        tails: Vec::new(alloc),
        after: false,
    };
    let mut left = env.disk_at(alloc, env.moment(), &nothing)?;
    let mut count = 0;
    for file in &files {
        count += pairs_of(alloc, &mut left, &options, file)?.len();
    }
    assert!(rt; count == puts.len());
    Ok(())
}

/// Whether a second key is refused after a first one, with no call of the device.
fn refuses(alloc: Global, first: &[u8], second: &[u8]) -> Result<bool> {
    let options = small(1);
    let mut env = RecordEnv::new(alloc);
    let mut versions = new_set(alloc)?;
    let mut outputs = TestOutputs::new(alloc);
    outputs.put(&mut env, &mut versions, "db", &options, first, b"")?;
    let before = env.moment();
    let put = outputs.put(&mut env, &mut versions, "db", &options, second, b"");
    Ok(failed_with(put, StatusCode::Corruption)? && env.moment() == before)
}

/// A key without a tag, and one that isn't after the last, whether the table ends there or not.
#[test]
fn unfit_keys_are_corruption(rt: HostRuntime) -> Result<()> {
    let alloc = rt.alloc();
    let key = key_of(alloc, b"b", 5, ValueType::TypeValue)?;
    let newer = key_of(alloc, b"b", 6, ValueType::TypeValue)?;
    let before = key_of(alloc, b"a", 4, ValueType::TypeValue)?;
    for second in [
        b"c".as_slice(),
        key.as_slice(),
        newer.as_slice(),
        before.as_slice(),
    ] {
        assert!(rt; refuses(alloc, key.as_slice(), second)?);
    }
    Ok(())
}

/// Where no compressor is set under the id, or it fails, the first table's file is made and left
/// empty.
#[test]
fn a_compressor_fails(rt: HostRuntime) -> Result<()> {
    let alloc = rt.alloc();
    let mut options = small(1);
    options.compressor = 9;
    let mut env = RecordEnv::new(alloc);
    let mut versions = new_set(alloc)?;
    let puts = puts(alloc, &mut Random(3), 9)?;
    let written = write_all(alloc, &mut env, &mut versions, &options, puts.as_slice());
    assert!(rt; failed_with(written, StatusCode::NotSupported)?);
    assert!(rt; env.size_of(&path_of(alloc, FIRST)?)? == 0);
    let refusing = Box::new(alloc, Refusing)?;
    options.compressor_list.set_with_id(alloc, 9, refusing)?;
    let written = write_all(alloc, &mut env, &mut versions, &options, puts.as_slice());
    assert!(rt; failed_with(written, StatusCode::CompressionError)?);
    Ok(())
}

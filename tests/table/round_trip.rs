//! A table from outside: built of a list of pairs into a file, opened, looked up and walked over
//! both ways, and what a caller knows then.

use super::checks::{Given, options_under};
use super::passed::BothWays;
use bytes::Bytes;
use leveldb_base::cmp::{Cmp, DefaultCmp, InternalKeyCmp, UserCmp};
use leveldb_base::error::{Result, StatusCode, err};
use leveldb_env::compressor::CompressorList;
use leveldb_env::env::{Env, EnvFile, Sink};
use leveldb_env::filter::{BloomPolicy, FilterPolicy, InternalFilterPolicy};
use leveldb_env::mem_env::MemEnv;
use leveldb_env::options::Options;
use leveldb_table::block_cache::BlockCache;
use leveldb_table::cache::Cache;
use leveldb_table::laws::{internal_keys_are_separated, internal_keys_stand_together};
use leveldb_table::table_builder::builder_core::BuilderCore;
use leveldb_table::table_reader::{Table, TableIterator};
use std::alloc::Global;
use std::process::Abort;

const TOO_MANY: &str = "more pairs than can be counted";

/// Adds pairs to a builder that has none. `InvalidArgument` where keys don't rise.
fn add_pairs<S: Sink, C: Cmp + Copy, FP: FilterPolicy>(
    alloc: Global,
    core: &mut BuilderCore<C, FP>,
    sink: &mut S,
    cmp: &C,
    compressors: &CompressorList,
    pairs: &[Given<'_>],
) -> Result<()> {
    let mut last = b"".as_slice();
    for (key, value) in pairs {
        if !cmp.accepts(key) || core.entries() > 0 && !cmp.cmp(last, key).is_lt() {
            return err(alloc, StatusCode::InvalidArgument, "keys don't rise");
        }
        core.add(sink, compressors, key, value)?;
        last = key;
    }
    Ok(())
}

/// Builds the table of these pairs into a sink, and returns its length.
fn build_into<S: Sink, C: Cmp + Copy + Drop, FP: FilterPolicy + Copy + Drop>(
    alloc: Global,
    options: &Options<C, FP>,
    sink: &mut S,
    pairs: &[Given<'_>],
) -> Result<usize> {
    let mut core = BuilderCore::new(alloc, options);
    let compressors = &options.compressor_list;
    add_pairs(alloc, &mut core, sink, &options.cmp, compressors, pairs)?;
    core.finish(sink, compressors)
}

/// Builds the table of these pairs into an open file, and returns its length.
fn build_open<E: Env, C: Cmp + Copy + Drop, FP: FilterPolicy + Copy + Drop>(
    alloc: Global,
    options: &Options<C, FP>,
    env: &mut E,
    file: &mut E::File,
    pairs: &[Given<'_>],
) -> Result<usize> {
    build_into(alloc, options, &mut EnvFile { env, file }, pairs)
}

/// Builds the table of these pairs into a new file, and returns its length.
fn build_file<E: Env, C: Cmp + Copy + Drop, FP: FilterPolicy + Copy + Drop>(
    alloc: Global,
    options: &Options<C, FP>,
    env: &mut E,
    name: &str,
    pairs: &[Given<'_>],
) -> Result<usize> {
    let mut file = env.open_writable_file(name)?;
    build_open(alloc, options, env, &mut file, pairs)
}

/// Opens the table that a file is.
fn open_file<E: Env, C: Cmp + Copy + Drop, FP: FilterPolicy + Copy + Drop>(
    alloc: Global,
    options: &Options<C, FP>,
    env: &mut E,
    cache: &mut BlockCache<C>,
    name: &str,
    size: usize,
) -> Result<Table<E, C, FP>> {
    let file = env.open_random_access_file(name)?;
    Table::open(
        alloc,
        options.cmp,
        options.filter_policy,
        &options.compressor_list,
        env,
        cache,
        file,
        size,
    )
}

/// Looks a key up in an open table.
fn look_up<E: Env, C: Cmp + Copy + Drop, FP: FilterPolicy + Copy + Drop>(
    alloc: Global,
    options: &Options<C, FP>,
    env: &mut E,
    cache: &mut BlockCache<C>,
    table: &Table<E, C, FP>,
    key: &[u8],
) -> Result<Option<(Bytes, Bytes)>> {
    table.get(alloc, env, cache, &options.compressor_list, key)
}

/// The pairs over which a walk goes from no position forward, up to no position again.
fn pairs_forward<E: Env, C: Cmp + Copy + Drop, FP: FilterPolicy>(
    alloc: Global,
    it: &mut TableIterator<'_, E, C, FP>,
) -> Result<Vec<(Bytes, Bytes)>> {
    let mut passed = Vec::new(alloc);
    it.advance()?;
    for step in 0..u64::MAX {
        let Some((key, value)) = it.current() else {
            return Ok(passed);
        };
        let key = Bytes::copy_from_slice(alloc, key)?;
        let value = Bytes::copy_from_slice(alloc, value)?;
        passed.push((key, value))?;
        it.advance()?;
    }
    err(alloc, StatusCode::NotSupported, TOO_MANY)
}

/// The pairs over which a walk goes from the last one back, up to no position.
fn pairs_back<E: Env, C: Cmp + Copy + Drop, FP: FilterPolicy>(
    alloc: Global,
    it: &mut TableIterator<'_, E, C, FP>,
) -> Result<Vec<(Bytes, Bytes)>> {
    let mut passed = Vec::new(alloc);
    it.seek_to_last()?;
    for step in 0..u64::MAX {
        let Some((key, value)) = it.current() else {
            return Ok(passed);
        };
        let key = Bytes::copy_from_slice(alloc, key)?;
        let value = Bytes::copy_from_slice(alloc, value)?;
        passed.push((key, value))?;
        it.prev()?;
    }
    err(alloc, StatusCode::NotSupported, TOO_MANY)
}

/// The pairs of an open table, as one walk goes over them forward and then back.
fn pairs_both_ways<E: Env, C: Cmp + Copy + Drop, FP: FilterPolicy + Copy + Drop>(
    alloc: Global,
    options: &Options<C, FP>,
    env: &mut E,
    cache: &mut BlockCache<C>,
    table: &Table<E, C, FP>,
) -> Result<BothWays> {
    let mut it = table.iter(alloc, env, cache, &options.compressor_list)?;
    let forward = pairs_forward(alloc, &mut it)?;
    let back = pairs_back(alloc, &mut it)?;
    Ok(BothWays { forward, back })
}

/// Builds a table of pairs into a file, opens it, looks a key up, and walks over it both ways.
/// Returns what was found, and the pairs over which the walk went.
fn build_and_read<E: Env, C: Cmp + Copy + Drop, FP: FilterPolicy + Copy + Drop>(
    alloc: Global,
    options: &Options<C, FP>,
    env: &mut E,
    cache: &mut BlockCache<C>,
    pairs: &[Given<'_>],
    key: &[u8],
) -> Result<(Option<(Bytes, Bytes)>, BothWays)> {
    let size = build_file(alloc, options, env, "table", pairs)?;
    let table = open_file(alloc, options, env, cache, "table", size)?;
    let found = look_up(alloc, options, env, cache, &table, key)?;
    let passed = pairs_both_ways(alloc, options, env, cache, &table)?;
    Ok((found, passed))
}

/// The same of internal keys: what is found is the newest entry of the key's user key at or below
/// its sequence number, a value or a deletion, or nothing if there is no such entry.
fn build_and_read_internal<E: Env, C: UserCmp + Copy + Drop, FP: FilterPolicy + Copy + Drop>(
    alloc: Global,
    options: &Options<InternalKeyCmp<C>, InternalFilterPolicy<FP>>,
    env: &mut E,
    cache: &mut BlockCache<InternalKeyCmp<C>>,
    pairs: &[Given<'_>],
    key: &[u8],
) -> Result<(Option<(Bytes, Bytes)>, BothWays)> {
    internal_keys_stand_together(&options.cmp);
    internal_keys_are_separated(&options.cmp);
    build_and_read(alloc, options, env, cache, pairs, key)
}

/// Two entries of the user's key `a`, the newer one first, and one of `b`.
const ENTRIES: [Given<'static>; 3] = [
    (b"a\x01\x03\0\0\0\0\0\0", b"new"),
    (b"a\x01\x01\0\0\0\0\0\0", b"old"),
    (b"b\x01\x02\0\0\0\0\0\0", b"other"),
];

/// Whether these are the entries, in their order.
fn are_entries(passed: &[(Bytes, Bytes)]) -> bool {
    if passed.len() != ENTRIES.len() {
        return false;
    }
    for (found, entry) in passed.iter().zip(&ENTRIES) {
        if found.0.as_slice() != entry.0 || found.1.as_slice() != entry.1 {
            return false;
        }
    }
    true
}

/// Whether this value is found for the user's key `a` at a sequence, and a walk goes over all
/// entries both ways.
fn finds_value(rt: &(impl Abort + AllocGlobal), sequence: u8, value: &[u8]) -> Result<bool> {
    let policy = InternalFilterPolicy::new(BloomPolicy::new(10));
    let options = options_under(InternalKeyCmp(DefaultCmp), policy);
    let mut env = MemEnv::new(rt.alloc());
    let mut cache = Cache::new(rt.alloc(), 4)?;
    let key = [b'a', 1, sequence, 0, 0, 0, 0, 0, 0];
    let (found, mut passed) = build_and_read_internal(
        rt.alloc(),
        &options,
        &mut env,
        &mut cache,
        &ENTRIES,
        &key,
    )?;
    let Some((_, found)) = found else {
        return Ok(false);
    };
    passed.back.reverse();
    Ok(found.as_slice() == value && are_entries(&passed.forward) && are_entries(&passed.back))
}

/// A look-up finds the newest entry at or below its sequence, and a walk goes over all entries.
#[test]
fn newest_entries(rt: HostRuntime) -> Result<()> {
    assert!(rt; finds_value(&rt, 9, b"new")?);
    assert!(rt; finds_value(&rt, 2, b"old")?);
    Ok(())
}

//! Walks over tables that are found in a folder, alone and merged, beside lists in memory.

use bytes::Bytes;
use leveldb_base::cmp::{Cmp, DefaultCmp, InternalKeyCmp};
use leveldb_base::error::{Result, StatusCode};
use leveldb_base::key_types::{LookupKey, ValueType};
use leveldb_base::types::MAX_SEQUENCE_NUMBER;
use leveldb_env::compressor::CompressorList;
use leveldb_env::env::Env;
use leveldb_env::env::whole_files::{read_file, replace_file};
use leveldb_env::filter::BloomPolicy;
use leveldb_env::mem_env::MemEnv;
use leveldb_env::options::{Options, in_memory};
use leveldb_iter::in_memory::InMemory;
use leveldb_iter::merging_iter::MergeCore;
use leveldb_iter::walk::Walk;
use leveldb_repair::found_walk::{FoundTable, FoundWalk, ReadFiles, open_found};
use leveldb_table::table_builder::TableBuilder;
use std::alloc::Global;
use std::process::Abort;
use support::{Listed, change_byte, failed_with};

type Choices = Options<DefaultCmp, BloomPolicy>;

type Order = InternalKeyCmp<DefaultCmp>;

type Child = FoundWalk<FoundTable<MemEnv, DefaultCmp>, Listed<Order>>;

/// What walks read from.
type Read<'a> = ReadFiles<'a, CompressorList>;

/// The first and the last number of a run of keys, and how far each is from the next.
type Run = (u64, u64, u64);

const FIRST: &str = "db/000005.ldb";

const OTHER: &str = "db/000007.sst";

/// The internal key of a number, whose entry has that number.
fn key_of(rt: &(impl Abort + AllocGlobal), number: u64) -> Result<Bytes> {
    assert!(rt; number <= MAX_SEQUENCE_NUMBER);
    let text = format!(in rt.alloc(); "key{number:05}")?;
    let key = LookupKey::new_full(rt.alloc(), text.as_bytes(), number, ValueType::TypeValue)?;
    Ok(Bytes::copy_from_slice(rt.alloc(), key.internal_key())?)
}

/// The pairs of a run of keys.
fn pairs_of(rt: &(impl Abort + AllocGlobal), run: Run) -> Result<Vec<(Bytes, Bytes)>> {
    let mut pairs = Vec::new(rt.alloc());
    let mut number = run.0;
    while number <= run.1 {
        let value = format!(in rt.alloc(); "value {number}")?;
        let value = Bytes::copy_from_slice(rt.alloc(), value.as_bytes())?;
        pairs.push((key_of(rt, number)?, value))?;
        number += run.2;
    }
    Ok(pairs)
}

/// Writes the table of a run of keys, in blocks of few keys.
fn put_table(
    rt: &(impl Abort + AllocGlobal),
    env: &mut MemEnv,
    options: &Choices,
    path: &str,
    run: Run,
) -> Result<()> {
    let compressors = &options.compressor_list;
    let mut builder = TableBuilder::new(rt.alloc(), options, Vec::new(rt.alloc()));
    let cmp = InternalKeyCmp(options.cmp);
    for pair in pairs_of(rt, run)?.as_slice() {
        assert!(rt; builder.follows(&pair.0) && cmp.accepts(&pair.0));
        builder.add(compressors, &pair.0, &pair.1)?;
    }
    let (table, size) = builder.finish(compressors);
    size?;
    if path == "temp" {
        return Ok(());
    }
    replace_file(rt.alloc(), env, "temp", path, table.as_slice())
}

/// An environment, and options with small blocks.
fn begun(rt: &(impl Abort + AllocGlobal)) -> Result<(MemEnv, Choices)> {
    let (env, mut options) = in_memory(rt.alloc());
    options.block_size = 100;
    Ok((env, options))
}

fn read_with(compressors: &CompressorList) -> Read<'_> {
    ReadFiles {
        compressors,
        store: "db",
        below: 10,
    }
}

fn is_at<E, T, W: Walk<E, T>>(walk: &W, pair: Option<&(Bytes, Bytes)>) -> bool {
    match (walk.current(), pair) {
        (None, None) => !walk.valid(),
        (Some((key, value)), Some(pair)) => {
            walk.valid() && key == pair.0.as_slice() && value == pair.1.as_slice()
        }
        _ => false,
    }
}

/// Walks forth and back over all pairs, and seeks each.
fn assert_walks<W: Walk<MemEnv, T>, T>(
    rt: &(impl Abort + AllocGlobal),
    env: &mut MemEnv,
    files: &mut T,
    walk: &mut W,
    pairs: &[(Bytes, Bytes)],
) -> Result<()> {
    assert!(rt; is_at::<MemEnv, T, W>(walk, None));
    for pair in pairs {
        assert!(rt; walk.advance(env, files)? && is_at::<MemEnv, T, W>(walk, Some(pair)));
    }
    assert!(rt; !walk.advance(env, files)? && is_at::<MemEnv, T, W>(walk, None));
    walk.seek_to_last(env, files)?;
    let mut left = pairs.len();
    while left > 0 {
        left -= 1;
        assert!(rt; is_at::<MemEnv, T, W>(walk, pairs.get(left)));
        assert!(rt; walk.prev(env, files)? == (left > 0));
    }
    for pair in pairs {
        walk.seek(env, files, &pair.0)?;
        assert!(rt; is_at::<MemEnv, T, W>(walk, Some(pair)));
    }
    walk.seek_to_first(env, files)?;
    assert!(rt; is_at::<MemEnv, T, W>(walk, pairs.first()));
    walk.reset();
    assert!(rt; is_at::<MemEnv, T, W>(walk, None));
    Ok(())
}

#[test]
fn one_table(rt: HostRuntime) -> Result<()> {
    let (mut env, options) = begun(&rt)?;
    put_table(&rt, &mut env, &options, FIRST, (1, 99, 2))?;
    let compressors = &options.compressor_list;
    let mut files = read_with(compressors);
    let mut walk = open_found(rt.alloc(), &mut env, FIRST, options.cmp, compressors)?;
    let pairs = pairs_of(&rt, (1, 99, 2))?;
    assert_walks(&rt, &mut env, &mut files, &mut walk, pairs.as_slice())?;
    walk.seek(&mut env, &mut files, &key_of(&rt, 48)?)?;
    assert!(&rt; is_at::<MemEnv, Read, _>(&walk, pairs.get(24)));
    walk.seek(&mut env, &mut files, &key_of(&rt, 100)?)?;
    assert!(&rt; is_at::<MemEnv, Read, _>(&walk, None));
    Ok(())
}

#[test]
fn a_table_with_no_pairs(rt: HostRuntime) -> Result<()> {
    let (mut env, options) = begun(&rt)?;
    put_table(&rt, &mut env, &options, FIRST, (1, 0, 1))?;
    let compressors = &options.compressor_list;
    let mut files = read_with(compressors);
    let mut walk = open_found(rt.alloc(), &mut env, FIRST, options.cmp, compressors)?;
    let none = pairs_of(&rt, (1, 0, 1))?;
    assert_walks(&rt, &mut env, &mut files, &mut walk, none.as_slice())
}

#[test]
fn tables_and_memory_merged(rt: HostRuntime) -> Result<()> {
    let (mut env, options) = begun(&rt)?;
    put_table(&rt, &mut env, &options, FIRST, (1, 90, 3))?;
    put_table(&rt, &mut env, &options, OTHER, (1, 90, 2))?;
    let compressors = &options.compressor_list;
    let mut files = read_with(compressors);
    let cmp = InternalKeyCmp(options.cmp);
    let first = open_found(rt.alloc(), &mut env, FIRST, options.cmp, compressors)?;
    let other = open_found(rt.alloc(), &mut env, OTHER, options.cmp, compressors)?;
    let listed = Listed::new(cmp, pairs_of(&rt, (1, 90, 1))?);
    let children: Vec<Child> = vec![in rt.alloc();
        FoundWalk::Table(first),
        FoundWalk::Memory(InMemory(listed)),
        FoundWalk::Table(other),
    ]?;
    let mut merge = MergeCore::new::<MemEnv, Read>(cmp, children);
    let pairs = pairs_of(&rt, (1, 90, 1))?;
    assert_walks(&rt, &mut env, &mut files, &mut merge, pairs.as_slice())
}

#[test]
fn new_tables_leave_a_walk(rt: HostRuntime) -> Result<()> {
    let (mut env, options) = begun(&rt)?;
    put_table(&rt, &mut env, &options, FIRST, (1, 50, 1))?;
    let compressors = &options.compressor_list;
    let mut files = read_with(compressors);
    let mut walk = open_found(rt.alloc(), &mut env, FIRST, options.cmp, compressors)?;
    walk.seek(&mut env, &mut files, &key_of(&rt, 20)?)?;
    put_table(&rt, &mut env, &options, "db/000010.ldb", (60, 90, 1))?;
    let pairs = pairs_of(&rt, (1, 50, 1))?;
    assert!(&rt; is_at::<MemEnv, Read, _>(&walk, pairs.get(19)));
    assert!(&rt; walk.advance(&mut env, &mut files)?);
    assert!(&rt; is_at::<MemEnv, Read, _>(&walk, pairs.get(20)));
    Ok(())
}

#[test]
fn damaged_and_missing(rt: HostRuntime) -> Result<()> {
    let (mut env, options) = begun(&rt)?;
    put_table(&rt, &mut env, &options, FIRST, (1, 50, 1))?;
    let mut bytes = read_file(rt.alloc(), &mut env, FIRST)?;
    change_byte(bytes.as_mut_slice(), 20, 1);
    replace_file(rt.alloc(), &mut env, "temp", FIRST, bytes.as_slice())?;
    let compressors = &options.compressor_list;
    let mut files = read_with(compressors);
    let mut walk = open_found(rt.alloc(), &mut env, FIRST, options.cmp, compressors)?;
    let moved = walk.advance(&mut env, &mut files);
    assert!(&rt; failed_with(moved, StatusCode::Corruption)?);
    assert!(&rt; is_at::<MemEnv, Read, _>(&walk, None));
    walk.seek_to_last(&mut env, &mut files)?;
    let pairs = pairs_of(&rt, (1, 50, 1))?;
    assert!(&rt; is_at::<MemEnv, Read, _>(&walk, pairs.last()));
    let missing = open_found(rt.alloc(), &mut env, OTHER, options.cmp, compressors);
    assert!(&rt; failed_with(missing, StatusCode::Corruption)?);
    replace_file(rt.alloc(), &mut env, "temp", OTHER, b"no table")?;
    let short = open_found(rt.alloc(), &mut env, OTHER, options.cmp, compressors);
    assert!(&rt; failed_with(short, StatusCode::Corruption)?);
    Ok(())
}

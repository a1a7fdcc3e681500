//! Tables built, opened, looked up and walked over, and compared with the lists of their pairs.
use super::checks::{
    EIGHT, Given, ONE, compressed, failed_saying, footer_of, has_pairs, internal_table,
    options_under, table_of,
};
use bytes::Bytes;
use leveldb_base::blockhandle::BlockHandle;
use leveldb_base::cmp::{Cmp, DefaultCmp};
use leveldb_base::error::{Result, StatusCode};
use leveldb_base::types::LdbIterator;
use leveldb_env::compressor::CompressorList;
use leveldb_env::env::Env;
use leveldb_env::filter::{BloomPolicy, FilterPolicy, NoFilterPolicy};
use leveldb_env::mem_env::MemEnv;
use leveldb_env::options::Options;
use leveldb_table::block::Block;
use leveldb_table::block_cache::BlockCache;
use leveldb_table::cache::Cache;
use leveldb_table::table_block::{read_filter_block, read_table_block};
use leveldb_table::table_builder::Footer;
use leveldb_table::table_reader::{KeyBuffers, Table, TableCore, TableIterator, TableReader};
use std::alloc::Global;
use std::process::Abort;
use support::{ShortReads, change_byte, failed_with};

mod caches;
mod damage;
mod places;
mod reused;

/// An empty key, empty values, keys that are prefixes of others, and keys of great bytes.
const PAIRS: [Given<'static>; 12] = [
    (b"", b"none"),
    (b"a", b""),
    (b"aa", b"1"),
    (b"ab", b"22"),
    (b"abc", b"333"),
    (b"b\0", b""),
    (b"bb", b"4"),
    (b"bbb", b"55555"),
    (b"c", b"6"),
    (b"ca", b""),
    (b"\xff", b"7"),
    (b"\xff\xff", b"88"),
];

/// Keys at, between and past all of them.
const PROBES: [&[u8]; 20] = [
    b"",
    b"\0",
    b"a",
    b"a\0",
    b"aa",
    b"ab",
    b"aba",
    b"abc",
    b"abd",
    b"b",
    b"b\0",
    b"b\x01",
    b"bb",
    b"bc",
    b"c",
    b"c\xff",
    b"d",
    b"\xff",
    b"\xff\xfe",
    b"\xff\xff\0",
];

/// A file of these bytes.
fn file_of<E: Env>(env: &mut E, bytes: &[u8]) -> Result<E::File> {
    let mut file = env.open_writable_file("table")?;
    env.append(&mut file, bytes)?;
    env.open_random_access_file("table")
}

/// The table that a file of these bytes is.
fn open_file<E: Env, FP: FilterPolicy + Copy + Drop>(
    alloc: Global,
    options: &Options<DefaultCmp, FP>,
    env: &mut E,
    cache: &mut BlockCache<DefaultCmp>,
    bytes: &[u8],
) -> Result<Table<E, DefaultCmp, FP>> {
    let file = file_of(env, bytes)?;
    Table::open(
        alloc,
        options.cmp,
        options.filter_policy,
        &options.compressor_list,
        env,
        cache,
        file,
        bytes.len(),
    )
}

/// The first pair at or after a key, looked for one by one.
fn first_from<'a>(pairs: &[Given<'a>], key: &[u8]) -> Option<Given<'a>> {
    for pair in pairs {
        if pair.0 >= key {
            return Some(*pair);
        }
    }
    None
}

/// Whether a walk is at this pair, or at no position where that is none.
fn is_at<E: Env, C: Cmp + Copy + Drop, FP: FilterPolicy>(
    it: &TableIterator<'_, E, C, FP>,
    pair: Option<Given<'_>>,
) -> bool {
    it.valid() == pair.is_some() && it.current() == pair
}

/// Whether a step goes to this pair, or to no position where that is none.
fn steps_to<E: Env, FP: FilterPolicy>(
    it: &mut TableIterator<'_, E, DefaultCmp, FP>,
    pair: Option<Given<'_>>,
) -> Result<bool> {
    Ok(it.advance()? == pair.is_some() && is_at(it, pair))
}

/// Whether a seek goes to this pair, or to no position where that is none.
fn seeks_to<E: Env, FP: FilterPolicy>(
    it: &mut TableIterator<'_, E, DefaultCmp, FP>,
    key: &[u8],
    pair: Option<Given<'_>>,
) -> Result<bool> {
    it.seek(key)?;
    Ok(is_at(it, pair))
}

/// Whether a step goes to each pair in turn, and then to no position.
fn goes_forward<E: Env, FP: FilterPolicy>(
    it: &mut TableIterator<'_, E, DefaultCmp, FP>,
    pairs: &[Given<'_>],
) -> Result<bool> {
    for pair in pairs {
        if !steps_to(it, Some(*pair))? {
            return Ok(false);
        }
    }
    steps_to(it, None)
}

/// Goes through all pairs, past the last, and to the first again.
fn check_forward<E: Env, FP: FilterPolicy>(
    rt: &impl Abort,
    it: &mut TableIterator<'_, E, DefaultCmp, FP>,
    pairs: &[Given<'_>],
) -> Result<()> {
    assert!(rt; goes_forward(it, pairs)?);
    assert!(rt; !it.prev()?);
    it.seek_to_first()?;
    assert!(rt; is_at(it, pairs.first().copied()));
    Ok(())
}

/// Whether a seek goes to a pair, a step back to the one before it, and a step forward to the pair
/// again.
fn turns_at<E: Env, FP: FilterPolicy>(
    it: &mut TableIterator<'_, E, DefaultCmp, FP>,
    before: Option<Given<'_>>,
    pair: Given<'_>,
) -> Result<bool> {
    let is_here = seeks_to(it, pair.0, Some(pair))?;
    let is_before = it.prev()? == before.is_some() && is_at(it, before);
    Ok(is_here && is_before && steps_to(it, Some(pair))?)
}

/// At each pair goes back and forward.
fn check_turns<E: Env, FP: FilterPolicy>(
    rt: &impl Abort,
    it: &mut TableIterator<'_, E, DefaultCmp, FP>,
    pairs: &[Given<'_>],
) -> Result<()> {
    let mut before = None;
    for pair in pairs {
        assert!(rt; turns_at(it, before, *pair)?, "at {pair:?}");
        before = Some(*pair);
    }
    Ok(())
}

/// Looks for keys.
fn check_seeks<E: Env, FP: FilterPolicy>(
    rt: &impl Abort,
    it: &mut TableIterator<'_, E, DefaultCmp, FP>,
    pairs: &[Given<'_>],
) -> Result<()> {
    for key in &PROBES {
        let first = first_from(pairs, key);
        assert!(rt; seeks_to(it, key, first)?, "from {key:?}");
    }
    it.reset();
    assert!(rt; !it.valid());
    Ok(())
}

/// Walks over a table of these pairs in all ways, from no position on.
fn check_moves<E: Env, FP: FilterPolicy>(
    rt: &impl Abort,
    it: &mut TableIterator<'_, E, DefaultCmp, FP>,
    pairs: &[Given<'_>],
) -> Result<()> {
    check_forward(rt, it, pairs)?;
    check_turns(rt, it, pairs)?;
    check_seeks(rt, it, pairs)
}

/// Walks over a table of these pairs in all ways.
fn check_walks<E: Env, FP: FilterPolicy>(
    rt: &(impl Abort + AllocGlobal),
    reader: &mut TableReader<'_, E, DefaultCmp, FP>,
    pairs: &[Given<'_>],
) -> Result<()> {
    let (env, cache) = (&mut *reader.env, &mut *reader.cache);
    let mut it = reader
        .table
        .iter(rt.alloc(), env, cache, reader.compressors)?;
    check_moves(rt, &mut it, pairs)
}

/// Whether what was found for a key is the first pair at or after it; a filter may rule out a key
/// that isn't there.
fn is_found(
    found: &Option<(Bytes, Bytes)>,
    first: Option<Given<'_>>,
    key: &[u8],
    filtered: bool,
) -> bool {
    match found {
        Some((found, value)) => Some((found.as_slice(), value.as_slice())) == first,
        None => first.is_none_or(|pair| filtered && pair.0 != key),
    }
}

/// Whether a look-up with a finder found the same pair, whose key is in the finder.
fn is_same_find(
    found: &Option<(Bytes, Bytes)>,
    value: &Option<Bytes>,
    key_buffers: &KeyBuffers,
) -> bool {
    match (found, value) {
        (Some((key, found)), Some(value)) => {
            key_buffers.key() == key.as_slice() && value.as_slice() == found.as_slice()
        }
        (None, None) => true,
        _ => false,
    }
}

/// Whether the first of these pairs at or after a key is found, by itself and with a finder.
fn finds<E: Env, FP: FilterPolicy>(
    alloc: Global,
    reader: &mut TableReader<'_, E, DefaultCmp, FP>,
    key: &[u8],
    key_buffers: &mut KeyBuffers,
    pairs: &[Given<'_>],
    filtered: bool,
) -> Result<bool> {
    let found = reader.get(alloc, key)?;
    let value = reader.find(alloc, key, key_buffers)?;
    let is_right = is_found(&found, first_from(pairs, key), key, filtered);
    Ok(is_right && is_same_find(&found, &value, key_buffers))
}

/// Looks up keys, each by itself and with one finder for all.
fn check_gets<E: Env, FP: FilterPolicy>(
    rt: &(impl Abort + AllocGlobal),
    reader: &mut TableReader<'_, E, DefaultCmp, FP>,
    pairs: &[Given<'_>],
    filtered: bool,
) -> Result<()> {
    let mut key_buffers = KeyBuffers::new(rt.alloc());
    for key in &PROBES {
        let is_right = finds(rt.alloc(), reader, key, &mut key_buffers, pairs, filtered)?;
        assert!(rt; is_right, "for {key:?}");
    }
    Ok(())
}

/// Walks over a table of these pairs in all ways, and looks up keys.
fn check_reads<E: Env, FP: FilterPolicy>(
    rt: &(impl Abort + AllocGlobal),
    reader: &mut TableReader<'_, E, DefaultCmp, FP>,
    pairs: &[Given<'_>],
    filtered: bool,
) -> Result<()> {
    check_walks(rt, reader, pairs)?;
    check_gets(rt, reader, pairs, filtered)
}

/// Builds, opens, walks and looks up the table of these pairs.
fn check_table<E: Env, FP: FilterPolicy + Copy + Drop>(
    rt: &(impl Abort + AllocGlobal),
    env: &mut E,
    options: &Options<DefaultCmp, FP>,
    pairs: &[Given<'_>],
    filtered: bool,
) -> Result<()> {
    let bytes = table_of(rt, options, pairs)?;
    let mut cache = Cache::new(rt.alloc(), 3)?;
    let table = open_file(rt.alloc(), options, env, &mut cache, &bytes)?;
    let mut reader = TableReader {
        table: &table,
        env,
        cache: &mut cache,
        compressors: &options.compressor_list,
    };
    check_reads(rt, &mut reader, pairs, filtered)
}

/// Tables of no, one, two and many pairs.
fn check_counts<E: Env, FP: FilterPolicy + Copy + Drop>(
    rt: &(impl Abort + AllocGlobal),
    env: &mut E,
    options: &Options<DefaultCmp, FP>,
    filtered: bool,
) -> Result<()> {
    for count in [0, 1, 2, 12] {
        let pairs = PAIRS.as_slice().get(..count).unwrap_or_default();
        check_table(rt, env, options, pairs, filtered)?;
    }
    Ok(())
}

/// Tables in one block, in a few, and in a block for each pair.
fn check_tables<E: Env, FP: FilterPolicy + Copy + Drop>(
    rt: &(impl Abort + AllocGlobal),
    env: &mut E,
    options: &mut Options<DefaultCmp, FP>,
    filtered: bool,
) -> Result<()> {
    for block_size in [1, 60, 4096] {
        options.block_size = block_size;
        check_counts(rt, env, options, filtered)?;
    }
    Ok(())
}

/// Filtered tables on a disk in memory.
#[test]
fn in_memory(rt: HostRuntime) -> Result<()> {
    let mut env = MemEnv::new(rt.alloc());
    check_tables(&rt, &mut env, &mut Options::default(), true)
}

/// Options for tables without filters.
fn unfiltered(block_size: usize) -> Options<DefaultCmp, NoFilterPolicy> {
    let mut options = options_under(DefaultCmp, NoFilterPolicy);
    options.block_size = block_size;
    options.block_restart_interval = 3;
    options
}

/// Tables without filters, whose reads are short.
#[test]
fn by_short_reads(rt: HostRuntime) -> Result<()> {
    let mut env = ShortReads::new(MemEnv::new(rt.alloc()));
    check_tables(&rt, &mut env, &mut unfiltered(1), false)
}

/// A table without filters, and with a block for each pair.
fn table_in(
    rt: &(impl Abort + AllocGlobal),
    env: &mut MemEnv,
    cache: &mut BlockCache<DefaultCmp>,
    pairs: &[Given<'_>],
) -> Result<Table<MemEnv, DefaultCmp, NoFilterPolicy>> {
    let options = unfiltered(1);
    let bytes = table_of(rt, &options, pairs)?;
    open_file(rt.alloc(), &options, env, cache, &bytes)
}

/// An open table without filters, and a disk for its file alone.
struct Opened {
    env: MemEnv,
    table: Table<MemEnv, DefaultCmp, NoFilterPolicy>,
}

impl Drop for Opened {
    // One call for whoever drops one, in place of one for each part of it.
    fn drop(self) {
        let Opened { env, table } = self;
        drop(env);
        drop(table);
    }
}

impl Opened {
    /// A table of these pairs, with a block for each.
    fn new(
        rt: &(impl Abort + AllocGlobal),
        cache: &mut BlockCache<DefaultCmp>,
        pairs: &[Given<'_>],
    ) -> Result<Opened> {
        let mut env = MemEnv::new(rt.alloc());
        let table = table_in(rt, &mut env, cache, pairs)?;
        Ok(Opened { env, table })
    }

    /// The table, with what its calls are given.
    fn reader<'a>(
        &'a mut self,
        cache: &'a mut BlockCache<DefaultCmp>,
        compressors: &'a CompressorList,
    ) -> TableReader<'a, MemEnv, DefaultCmp, NoFilterPolicy> {
        TableReader {
            table: &self.table,
            env: &mut self.env,
            cache,
            compressors,
        }
    }
}

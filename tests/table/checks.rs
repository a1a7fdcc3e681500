//! What several tests ask, and the pairs, tables and compressor that they share.

use leveldb_base::blockhandle::BlockHandle;
use leveldb_base::cmp::{Cmp, DefaultCmp, InternalKeyCmp};
use leveldb_base::error::{Result, StatusCode};
use leveldb_base::types::LdbIterator;
use leveldb_env::compressor::CompressorList;
use leveldb_env::env::Sink;
use leveldb_env::filter::{BloomPolicy, FilterPolicy};
use leveldb_env::options::Options;
use leveldb_table::block::{Block, BlockIter};
use leveldb_table::table_builder::{FULL_FOOTER_LENGTH, Footer, TableBuilder};
use std::alloc::{AllocError, Global};
use std::process::Abort;
use support::Raised;

/// A key and its value.
pub type Given<'a> = (&'a [u8], &'a [u8]);

/// The pairs of a table in one block.
pub const EIGHT: [Given<'static>; 8] = [
    (b"abc", b"def"),
    (b"abd", b"def"),
    (b"abe", b"dee"),
    (b"abf", b"dee"),
    (b"bcd", b"asa"),
    (b"ccd", b"asa"),
    (b"dcc", b"a00"),
    (b"dcd", b"a00"),
];

/// The user's key `a` at the sequence 1, for a value.
pub const ONE: [Given<'static>; 1] = [(b"a\x01\x01\0\0\0\0\0\0", b"1")];

/// The options by default but for an order of keys and a filter policy.
pub fn options_under<C, FP>(cmp: C, filter_policy: FP) -> Options<C, FP> {
    let defaults = Options::default();
    Options {
        cmp,
        filter_policy,
        log: None,
        create_if_missing: defaults.create_if_missing,
        error_if_exists: defaults.error_if_exists,
        paranoid_checks: defaults.paranoid_checks,
        write_buffer_size: defaults.write_buffer_size,
        max_open_files: defaults.max_open_files,
        max_file_size: defaults.max_file_size,
        block_cache_capacity_bytes: defaults.block_cache_capacity_bytes,
        block_size: defaults.block_size,
        block_restart_interval: defaults.block_restart_interval,
        compressor: defaults.compressor,
        compressor_list: CompressorList::default(),
        reuse_logs: defaults.reuse_logs,
        reuse_manifest: defaults.reuse_manifest,
    }
}

/// Options with restart points at every third entry, and the compressor of the id 7.
pub fn compressed(alloc: Global) -> Result<Options<DefaultCmp, BloomPolicy>> {
    let mut options = Options::default();
    options.block_restart_interval = 3;
    options.compressor = 7;
    let raised = Box::new(alloc, Raised)?;
    options.compressor_list.set_with_id(alloc, 7, raised)?;
    Ok(options)
}

/// Whether a call failed with this code and text. Out of memory is passed on.
pub fn failed_saying<T: Drop>(answer: Result<T>, code: StatusCode, text: &str) -> Result<bool> {
    let Err(status) = answer else {
        return Ok(false);
    };
    if status.code == StatusCode::OutOfMemory {
        return Err(status);
    }
    let found = status.err.ok_or(AllocError)?;
    Ok(status.code == code && found.as_str() == text)
}

/// How many pairs a walk goes over, if they are the first of these.
pub fn count_pairs(
    it: &mut BlockIter<'_, DefaultCmp>,
    pairs: &[Given<'_>],
) -> Result<Option<usize>> {
    let mut count = 0usize;
    for pair in pairs {
        if !it.advance()? {
            return Ok(Some(count));
        }
        if it.current() != Some(*pair) {
            return Ok(None);
        }
        count = count.saturating_add(1);
    }
    Ok(if it.advance()? { None } else { Some(count) })
}

/// Whether a block has exactly these pairs, in this order.
pub fn has_pairs(alloc: Global, block: &Block<DefaultCmp>, pairs: &[Given<'_>]) -> Result<bool> {
    let mut it = block.iter(alloc);
    Ok(count_pairs(&mut it, pairs)? == Some(pairs.len()))
}

/// Adds pairs to a builder that has none; keys that don't rise end the test.
pub fn add_all<S: Sink, C: Cmp + Copy, FP: FilterPolicy + Copy>(
    rt: &impl Abort,
    builder: &mut TableBuilder<S, C, FP>,
    cmp: &C,
    compressors: &CompressorList,
    pairs: &[Given<'_>],
) -> Result<()> {
    let mut last = b"".as_slice();
    for (key, value) in pairs {
        let rises = builder.entries() == 0 || cmp.cmp(last, key).is_lt();
        assert!(rt; rises && cmp.accepts(key), "{key:?}");
        builder.add(compressors, key, value)?;
        last = key;
    }
    Ok(())
}

/// The table of these pairs by a builder that has none and returns its length.
pub fn finish_with<C: Cmp + Copy + Drop, FP: FilterPolicy + Copy + Drop>(
    rt: &impl Abort,
    mut builder: TableBuilder<Vec<u8>, C, FP>,
    cmp: &C,
    compressors: &CompressorList,
    pairs: &[Given<'_>],
) -> Result<Vec<u8>> {
    add_all(rt, &mut builder, cmp, compressors, pairs)?;
    assert!(rt; builder.entries() == pairs.len());
    let (table, size) = builder.finish(compressors);
    assert!(rt; table.len() == size?);
    Ok(table)
}

/// The table of these pairs.
pub fn table_of<FP: FilterPolicy + Copy + Drop>(
    rt: &(impl Abort + AllocGlobal),
    options: &Options<DefaultCmp, FP>,
    pairs: &[Given<'_>],
) -> Result<Vec<u8>> {
    let builder = TableBuilder::new_raw(rt.alloc(), options, Vec::new(rt.alloc()));
    finish_with(rt, builder, &options.cmp, &options.compressor_list, pairs)
}

/// The table of one internal key.
pub fn internal_table(
    rt: &(impl Abort + AllocGlobal),
    options: &Options<DefaultCmp, BloomPolicy>,
) -> Result<Vec<u8>> {
    let builder = TableBuilder::new(rt.alloc(), options, Vec::new(rt.alloc()));
    let cmp = InternalKeyCmp(options.cmp);
    let table = finish_with(rt, builder, &cmp, &options.compressor_list, &ONE)?;
    assert!(rt; table.len() == 177);
    Ok(table)
}

/// The offset and the size that a handle has.
pub fn numbers(handle: &BlockHandle) -> (usize, usize) {
    (handle.offset(), handle.size())
}

/// The footer of a table.
pub fn footer_of(rt: &impl Abort, table: &[u8]) -> Footer {
    let start = table.len().saturating_sub(FULL_FOOTER_LENGTH);
    let Some(footer) = Footer::decode(table.get(start..).unwrap_or_default()) else {
        panic!(rt; "no footer");
    };
    footer
}

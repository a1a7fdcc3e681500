//! Tables built, and their bytes. The lengths are worked by hand from the format.
use super::checks::{
    EIGHT, Given, ONE, add_all, compressed, count_pairs, failed_saying, finish_with, footer_of,
    internal_table, numbers, table_of,
};
use bytes::Bytes;
use leveldb_base::blockhandle::BlockHandle;
use leveldb_base::cmp::{Cmp, DefaultCmp, InternalKeyCmp};
use leveldb_base::error::{Result, StatusCode, err};
use leveldb_base::types::LdbIterator;
use leveldb_env::env::Sink;
use leveldb_env::filter::{BloomPolicy, FilterPolicy};
use leveldb_env::options::Options;
use leveldb_table::block::{Block, BlockIter};
use leveldb_table::table_builder::{Footer, TableBuilder};
use std::alloc::Global;
use std::process::Abort;
use support::Refusing;

/// Takes the first `room` bytes; so a put may be taken in part. A flush fails if no room is left.
#[derive(Drop)]
struct Limited {
    taken: Vec<u8>,
    room: usize,
}

impl Sink for Limited {
    ghost puts = { ? };

    ghost flushes = { ? };

    fn put_all(&mut self, bytes: &[u8]) -> Result<()> {
        let count = bytes.len().min(self.room);
        self.taken.extend_from_slice(&bytes[..count])?;
        self.room -= count;
        if count < bytes.len() {
            return err(
                *self.taken.allocator(),
                StatusCode::PermissionDenied,
                "no room",
            );
        }
        Ok(())
    }

    fn flush(&mut self) -> Result<()> {
        if self.room == 0 {
            return err(
                *self.taken.allocator(),
                StatusCode::PermissionDenied,
                "no flush",
            );
        }
        Ok(())
    }
}

fn options(interval: usize) -> Options<DefaultCmp, BloomPolicy> {
    let mut options = Options::default();
    options.block_restart_interval = interval;
    options
}

// Whether a builder that is broken failed.
fn is_broken<T: Drop>(answer: Result<T>) -> Result<bool> {
    let text = "IOError: reopen the store";
    failed_saying(answer, StatusCode::IOError, text)
}

// Whether a call failed since the id 9 has no compressor.
fn is_unset<T: Drop>(answer: Result<T>) -> Result<bool> {
    let text = "invalid compression id `9`";
    failed_saying(answer, StatusCode::NotSupported, text)
}

/// The id after the block at a handle.
fn id_after(table: &[u8], handle: &BlockHandle) -> Option<u8> {
    table
        .get(handle.offset().saturating_add(handle.size()))
        .copied()
}

/// The block at a handle, which is stored as it is.
fn block_at(alloc: Global, table: &[u8], handle: &BlockHandle) -> Result<Block<DefaultCmp>> {
    let end = handle.offset().saturating_add(handle.size());
    let bytes = table.get(handle.offset()..end).unwrap_or_default();
    Block::new(
        alloc,
        DefaultCmp,
        Bytes::from_vec(Vec::from_slice(alloc, bytes)?)?,
    )
}

/// How many pairs the block at a handle has, if they are the first of these.
fn count_in_block(
    alloc: Global,
    table: &[u8],
    handle: &BlockHandle,
    pairs: &[Given<'_>],
) -> Result<Option<usize>> {
    let block = block_at(alloc, table, handle)?;
    let mut it = block.iter(alloc);
    count_pairs(&mut it, pairs)
}

/// How much of a table was read: how many data blocks, the offset of the next, and the pairs that
/// are left for it.
#[derive(Clone, Copy)]
struct Progress<'a> {
    blocks: usize,
    offset: usize,
    pairs: &'a [Given<'a>],
}

/// The key of an index's line, and its handle.
fn line<'a>(lines: &'a BlockIter<'_, DefaultCmp>) -> Option<(&'a [u8], BlockHandle)> {
    let (key, value) = lines.current()?;
    let (handle, _) = BlockHandle::decode(value)?;
    Some((key, handle))
}

/// Reads a data block, which is at the next offset and has the next pairs. Its line's key is before
/// the pair after them. Returns none where that isn't so.
fn read_block<'a>(
    alloc: Global,
    table: &[u8],
    before: Progress<'a>,
    (key, handle): (&[u8], BlockHandle),
) -> Result<Option<Progress<'a>>> {
    let Some(count) = count_in_block(alloc, table, &handle, before.pairs)? else {
        return Ok(None);
    };
    let pairs = before.pairs.get(count..).unwrap_or_default();
    let is_parted = pairs
        .first()
        .is_none_or(|next| DefaultCmp.cmp(key, next.0).is_lt());
    if handle.offset() != before.offset || !is_parted {
        return Ok(None);
    }
    let end = handle.offset().saturating_add(handle.size());
    Ok(Some(Progress {
        blocks: before.blocks.saturating_add(1),
        offset: end.saturating_add(5),
        pairs,
    }))
}

/// Reads the data blocks that the lines of an index name, from no position on.
fn read_blocks<'a>(
    rt: &(impl Abort + AllocGlobal),
    table: &[u8],
    lines: &mut BlockIter<'_, DefaultCmp>,
    pairs: &'a [Given<'a>],
) -> Result<Progress<'a>> {
    let mut progress = Progress {
        blocks: 0,
        offset: 0,
        pairs,
    };
    for _ in 0..table.len() {
        if !lines.advance()? {
            break;
        }
        let Some(line) = line(lines) else {
            panic!(rt; "no line");
        };
        let Some(next) = read_block(rt.alloc(), table, progress, line)? else {
            panic!(rt; "block {}", progress.blocks);
        };
        progress = next;
    }
    Ok(progress)
}

/// Reads a table slowly: its data blocks are one after another from the front on, have exactly
/// these pairs, and the index parts them. Returns how many they are.
fn count_blocks(
    rt: &(impl Abort + AllocGlobal),
    table: &[u8],
    pairs: &[Given<'_>],
) -> Result<usize> {
    let index = block_at(rt.alloc(), table, &footer_of(rt, table).index)?;
    let mut lines = index.iter(rt.alloc());
    let progress = read_blocks(rt, table, &mut lines, pairs)?;
    assert!(rt; progress.pairs.is_empty());
    Ok(progress.blocks)
}

/// Eight pairs in one block, with restart points at every third.
#[test]
fn eight_pairs(rt: HostRuntime) -> Result<()> {
    let options = options(3);
    let compressors = &options.compressor_list;
    let mut builder = TableBuilder::new_raw(rt.alloc(), &options, Vec::new(rt.alloc()));
    add_all(&rt, &mut builder, &options.cmp, compressors, &EIGHT)?;
    assert!(rt; (builder.entries(), builder.size_estimate()) == (8, 143));
    let (table, size) = builder.finish(compressors);
    assert!(rt; (size?, table.len()) == (233, 233));
    assert!(rt; count_blocks(&rt, &table, &EIGHT)? == 1);
    Ok(())
}

/// The ids after the data block, the metaindex and the index of a table of eight pairs, and after
/// its filters.
fn ids_of(table: &[u8], footer: &Footer) -> [Option<u8>; 4] {
    [
        id_after(table, &BlockHandle::new(0, 82)),
        id_after(table, &footer.meta_index),
        id_after(table, &footer.index),
        id_after(table, &BlockHandle::new(87, 20)),
    ]
}

/// Whether bytes are as many as others, and each is one more.
fn are_raised(stored: &[u8], plain: &[u8]) -> bool {
    for (byte, before) in stored.iter().zip(plain) {
        if *byte != before.wrapping_add(1) {
            return false;
        }
    }
    stored.len() == plain.len()
}

/// Asserts that the blocks of a table of eight pairs but the filters' are stored by a compressor.
fn assert_compressed(rt: &impl Abort, table: &[u8], plain: &[u8]) {
    assert!(rt; table.len() == 233);
    let footer = footer_of(rt, table);
    assert!(rt; ids_of(table, &footer) == [Some(7), Some(7), Some(7), Some(0)]);
    assert!(rt; ids_of(plain, &footer) == [Some(0); 4]);
    let data = table.get(..82).unwrap_or_default();
    assert!(rt; are_raised(data, plain.get(..82).unwrap_or_default()));
}

/// The same under a compressor: the blocks but the filters' are stored by it, under its id.
#[test]
fn eight_pairs_compressed(rt: HostRuntime) -> Result<()> {
    let plain = table_of(&rt, &options(3), &EIGHT)?;
    let table = table_of(&rt, &compressed(rt.alloc())?, &EIGHT)?;
    assert_compressed(&rt, &table, &plain);
    Ok(())
}

/// Asserts that the block at a handle of a table has this pair alone.
fn assert_only(
    rt: &(impl Abort + AllocGlobal),
    table: &[u8],
    handle: &BlockHandle,
    pair: Given<'_>,
) -> Result<()> {
    assert!(rt; count_in_block(rt.alloc(), table, handle, &[pair])? == Some(1));
    Ok(())
}

/// One pair by an internal key, with the user's key in the filter.
#[test]
fn one_internal_pair(rt: HostRuntime) -> Result<()> {
    let table = internal_table(&rt, &options(16))?;
    let footer = footer_of(&rt, &table);
    assert!(rt; [numbers(&footer.meta_index), numbers(&footer.index)] == [(49, 47), (101, 23)]);
    let filters: Given<'_> = (b"filter.leveldb.BuiltinBloomFilter2", &[26, 18]);
    assert_only(&rt, &table, &footer.meta_index, filters)?;
    let filter = table.get(26..35).unwrap_or_default();
    assert!(rt; BloomPolicy::new(10).key_may_match(b"a", filter));
    Ok(())
}

/// The index's one line is under `a\0` at 1, which is after `a` at 1, and gives the data block's
/// handle.
#[test]
fn index_key_of_one_internal_pair(rt: HostRuntime) -> Result<()> {
    let table = internal_table(&rt, &options(16))?;
    let line: Given<'_> = (b"a\0\x01\x01\0\0\0\0\0\0", &[0, 21]);
    assert_only(&rt, &table, &footer_of(&rt, &table).index, line)
}

/// The same without filters: 21 and 5 bytes, 9 and 5, 21 and 5, 23 and 5, and 48.
#[test]
fn one_internal_pair_without_filter(rt: HostRuntime) -> Result<()> {
    let options = options(16);
    let builder = TableBuilder::new_no_filter(rt.alloc(), &options, Vec::new(rt.alloc()));
    let cmp = InternalKeyCmp(options.cmp);
    let table = finish_with(&rt, builder, &cmp, &options.compressor_list, &ONE)?;
    assert!(rt; table.len() == 142);
    let footer = footer_of(&rt, &table);
    assert_only(&rt, &table, &footer.meta_index, (b"filter._", &[26, 9]))
}

/// A table without pairs: 5 and 5 bytes, 47 and 5, 8 and 5, and 48.
#[test]
fn empty_table(rt: HostRuntime) -> Result<()> {
    let table = table_of(&rt, &options(16), &[])?;
    assert!(rt; table.len() == 123);
    assert!(rt; count_blocks(&rt, &table, &[])? == 0);
    Ok(())
}

/// Blocks of 64 bytes, an entry of which takes 15 with its restart point: a fifth one fills a
/// block, a fourth does not.
fn small_blocks() -> Options<DefaultCmp, BloomPolicy> {
    let mut options = options(1);
    options.block_size = 64;
    options
}

/// Keys of four bytes that rise.
fn rising_keys(alloc: Global, count: u8) -> Result<Vec<[u8; 4]>> {
    let mut keys = Vec::new(alloc);
    for i in 0..count {
        keys.push([b'k', b'0' + i / 100, b'0' + i / 10 % 10, b'0' + i % 10])?;
    }
    Ok(keys)
}

/// Each key with itself for a value.
fn doubled(alloc: Global, keys: &[[u8; 4]]) -> Result<Vec<Given<'_>>> {
    let mut pairs: Vec<Given<'_>> = Vec::new(alloc);
    for key in keys {
        pairs.push((key.as_slice(), key.as_slice()))?;
    }
    Ok(pairs)
}

/// How many data blocks so many pairs have: five pairs a block, as the last of them makes it full.
const BLOCKS: [(usize, usize); 7] = [(1, 1), (4, 1), (5, 1), (6, 2), (40, 8), (41, 9), (201, 41)];

/// Asserts that a table of these pairs has this number of data blocks.
fn assert_blocks(
    rt: &(impl Abort + AllocGlobal),
    pairs: &[Given<'_>],
    blocks: usize,
) -> Result<()> {
    let table = table_of(rt, &small_blocks(), pairs)?;
    assert!(rt;
        count_blocks(rt, &table, pairs)? == blocks,
        "{blocks} blocks"
    );
    Ok(())
}

#[test]
fn many_blocks(rt: HostRuntime) -> Result<()> {
    let keys = rising_keys(rt.alloc(), 201)?;
    let pairs = doubled(rt.alloc(), &keys)?;
    for (count, blocks) in &BLOCKS {
        assert_blocks(&rt, pairs.get(..*count).unwrap_or_default(), *blocks)?;
    }
    Ok(())
}

/// Whether a table that is built into a sink fails with this text, and so does each further call if
/// there still is a builder.
fn fails_into(
    rt: &(impl Abort + AllocGlobal),
    options: &Options<DefaultCmp, BloomPolicy>,
    sink: &mut Limited,
    pairs: &[Given<'_>],
    text: &str,
) -> Result<bool> {
    let compressors = &options.compressor_list;
    let code = StatusCode::PermissionDenied;
    let mut builder = TableBuilder::new_raw(rt.alloc(), options, sink);
    let added = add_all(rt, &mut builder, &options.cmp, compressors, pairs);
    if added.is_ok() {
        return failed_saying(builder.finish(compressors).1, code, text);
    }
    let is_right = failed_saying(added, code, text)?;
    let is_added = is_broken(builder.add(compressors, b"z", b""))?;
    let is_finished = is_broken(builder.finish(compressors).1)?;
    Ok(is_right && is_added && is_finished)
}

/// Asserts that a sink with room for this many bytes of a table takes exactly those. If all are
/// taken, the flush fails.
fn assert_taken(
    rt: &(impl Abort + AllocGlobal),
    options: &Options<DefaultCmp, BloomPolicy>,
    pairs: &[Given<'_>],
    table: &[u8],
    room: usize,
) -> Result<()> {
    let text = if room == table.len() {
        "PermissionDenied: no flush"
    } else {
        "PermissionDenied: no room"
    };
    let taken = Vec::new(rt.alloc());
    let mut sink = Limited { taken, room };
    let fails = fails_into(rt, options, &mut sink, pairs, text)?;
    let takes_all = table.get(..room) == Some(sink.taken.as_slice());
    assert!(rt; fails && takes_all, "at {room}");
    Ok(())
}

#[test]
fn sink_fails_anywhere(rt: HostRuntime) -> Result<()> {
    let keys = rising_keys(rt.alloc(), 11)?;
    let pairs = doubled(rt.alloc(), &keys)?;
    let options = small_blocks();
    let table = table_of(&rt, &options, &pairs)?;
    for room in 0..=table.len() {
        assert_taken(&rt, &options, &pairs, &table, room)?;
    }
    Ok(())
}

/// Asserts that the pairs fill a block of an id without a compressor, and that the builder is
/// broken then.
fn assert_unset(
    rt: &(impl Abort + AllocGlobal),
    options: &Options<DefaultCmp, BloomPolicy>,
    table: &mut Vec<u8>,
    pairs: &[Given<'_>],
) -> Result<()> {
    let compressors = &options.compressor_list;
    let mut builder = TableBuilder::new_raw(rt.alloc(), options, table);
    let added = add_all(rt, &mut builder, &options.cmp, compressors, pairs);
    assert!(rt; is_unset(added)?);
    assert!(rt; builder.entries() == 5);
    assert!(rt; is_broken(builder.finish(compressors).1)?);
    Ok(())
}

#[test]
fn unset_id_at_a_full_block(rt: HostRuntime) -> Result<()> {
    let keys = rising_keys(rt.alloc(), 11)?;
    let pairs = doubled(rt.alloc(), &keys)?;
    let mut options = small_blocks();
    options.compressor = 9;
    let mut table = Vec::new(rt.alloc());
    assert_unset(&rt, &options, &mut table, &pairs)?;
    assert!(rt; table.is_empty());
    Ok(())
}

/// An id without a compressor fails at the end too, with an open block and without.
#[test]
fn unset_id_at_the_end(rt: HostRuntime) -> Result<()> {
    let mut options = options(16);
    options.compressor = 9;
    for pairs in [EIGHT.as_slice(), &[]] {
        let answer = table_of(&rt, &options, pairs);
        assert!(rt; is_unset(answer)?);
    }
    Ok(())
}

/// A compressor's own code is passed on.
#[test]
fn compressor_that_fails(rt: HostRuntime) -> Result<()> {
    let mut options = options(16);
    options.compressor = 9;
    let refusing = Box::new(rt.alloc(), Refusing)?;
    options
        .compressor_list
        .set_with_id(rt.alloc(), 9, refusing)?;
    for pairs in [EIGHT.as_slice(), &[]] {
        let answer = table_of(&rt, &options, pairs);
        let text = "CompressionError: too dense";
        assert!(rt; failed_saying(answer, StatusCode::CompressionError, text)?);
    }
    Ok(())
}

//! Blocks and filters read from files: whole, damaged, cut, and at handles past the file.
use super::checks::{Given, failed_saying, has_pairs};
use leveldb_base::blockhandle::BlockHandle;
use leveldb_base::cmp::DefaultCmp;
use leveldb_base::crc::{digest, mask_crc};
use leveldb_base::error::{Result, StatusCode};
use leveldb_env::compressor::CompressorList;
use leveldb_env::env::Env;
use leveldb_env::filter::BloomPolicy;
use leveldb_env::filter_block::{FilterBlockBuilder, FilterBlockReader};
use leveldb_env::mem_env::MemEnv;
use leveldb_env::options::Options;
use leveldb_table::block::{Block, BlockContents};
use leveldb_table::block_builder::BlockBuilder;
use leveldb_table::table_block::{read_filter_block, read_table_block};
use std::alloc::Global;
use std::process::Abort;
use support::{ShortReads, change_byte, failed_with};

/// The first bytes of each file.
const FRONT: &[u8] = b"front";

/// Handles of which no file here has all bytes.
const PAST: [(usize, usize); 9] = [
    (5, 60),
    (200, 0),
    (200, 60),
    (5, 1 << 63),
    (5, usize::MAX),
    (1 << 63, 1 << 63),
    (usize::MAX, 0),
    (usize::MAX - 4, 5),
    (usize::MAX, usize::MAX),
];

/// The pairs of a block.
const THREE: [Given<'static>; 3] = [(b"a", b"1"), (b"ab", b""), (b"b", b"333")];

/// The block of the three pairs.
fn three_pairs(alloc: Global) -> Result<BlockContents> {
    let mut builder = BlockBuilder::new(alloc, &Options::default());
    builder.add(b"a", b"1")?;
    builder.add(b"ab", b"")?;
    builder.add(b"b", b"333")?;
    builder.finish()
}

/// The block of one pair of this value.
fn one_pair(alloc: Global, value: &[u8]) -> Result<BlockContents> {
    let mut builder = BlockBuilder::new(alloc, &Options::default());
    builder.add(b"a", value)?;
    builder.finish()
}

/// The filter of two keys.
fn two_keys(alloc: Global) -> Result<Vec<u8>> {
    let mut builder = FilterBlockBuilder::new(alloc, BloomPolicy::new(10));
    builder.start_block(0)?;
    builder.add_key(b"a")?;
    builder.add_key(b"ab")?;
    builder.finish()
}

/// A file's bytes: the first ones, these, and after them an id and the checksum. The handle is
/// theirs.
fn file_bytes(alloc: Global, stored: &[u8], id: u8) -> Result<(Vec<u8>, BlockHandle)> {
    let mut digest = digest();
    digest.update(stored);
    digest.update(&[id]);
    let mut bytes = Vec::from_slice(alloc, FRONT)?;
    bytes.extend_from_slice(stored)?;
    bytes.push(id)?;
    bytes.extend_from_slice(&mask_crc(digest.finalize()).to_le_bytes())?;
    Ok((bytes, BlockHandle::new(FRONT.len(), stored.len())))
}

/// The bytes of a file with the block of the three pairs under an id, and the block's handle.
fn stored_pairs(alloc: Global, id: u8) -> Result<(Vec<u8>, BlockHandle)> {
    file_bytes(alloc, three_pairs(alloc)?.as_slice(), id)
}

/// The same of the filter of two keys.
fn stored_filter(alloc: Global, id: u8) -> Result<(Vec<u8>, BlockHandle)> {
    file_bytes(alloc, &two_keys(alloc)?, id)
}

/// A file of these bytes.
fn file_of<E: Env>(env: &mut E, bytes: &[u8]) -> Result<E::File> {
    let mut file = env.open_writable_file("blocks")?;
    env.append(&mut file, bytes)?;
    env.open_random_access_file("blocks")
}

/// The block at a handle of a file of these bytes, whose blocks are all stored as they are.
fn block_at<E: Env>(
    alloc: Global,
    env: &mut E,
    bytes: &[u8],
    location: BlockHandle,
) -> Result<Block<DefaultCmp>> {
    let file = file_of(env, bytes)?;
    let compressors = CompressorList::default();
    read_table_block(alloc, DefaultCmp, env, &file, &compressors, location)
}

/// The filters at a handle of a file of these bytes.
fn filters_at<E: Env>(
    alloc: Global,
    env: &mut E,
    bytes: &[u8],
    location: BlockHandle,
) -> Result<FilterBlockReader<BloomPolicy>> {
    let file = file_of(env, bytes)?;
    read_filter_block(alloc, BloomPolicy::new(10), env, &file, location)
}

/// Whether the block at a handle of a file has the three pairs.
fn has_three_pairs<E: Env>(
    alloc: Global,
    env: &mut E,
    bytes: &[u8],
    location: BlockHandle,
) -> Result<bool> {
    has_pairs(alloc, &block_at(alloc, env, bytes, location)?, &THREE)
}

/// Whether the block at a handle of a file is corrupt.
fn is_corrupt<E: Env>(
    alloc: Global,
    env: &mut E,
    bytes: &[u8],
    location: BlockHandle,
) -> Result<bool> {
    let answer = block_at(alloc, env, bytes, location);
    failed_with(answer, StatusCode::Corruption)
}

/// Whether the filters at a handle of a file fail with this code.
fn filters_fail<E: Env>(
    alloc: Global,
    env: &mut E,
    bytes: &[u8],
    location: BlockHandle,
    code: StatusCode,
) -> Result<bool> {
    let answer = filters_at(alloc, env, bytes, location);
    failed_with(answer, code)
}

/// Whether filters are those of the two keys.
fn are_filters(filters: &FilterBlockReader<BloomPolicy>) -> bool {
    let has_keys = filters.key_may_match(0, b"a") && filters.key_may_match(0, b"ab");
    let has_other = filters.key_may_match(0, b"b");
    filters.num() == 1 && has_keys && !has_other && filters.key_may_match(2048, b"b")
}

/// Asserts that a block is read, and is the three pairs, if and only if a raised byte is before it.
/// It is damaged if it is cut off at that byte.
fn check_damaged_block<E: Env>(
    rt: &(impl Abort + AllocGlobal),
    env: &mut E,
    bytes: &mut [u8],
    location: BlockHandle,
    place: usize,
) -> Result<()> {
    let cut = bytes.get(..place).unwrap_or_default();
    assert!(rt;
        is_corrupt(rt.alloc(), env, cut, location)?,
        "{place} bytes"
    );
    change_byte(bytes, place, 1);
    let is_right = if place < FRONT.len() {
        has_three_pairs(rt.alloc(), env, bytes, location)?
    } else {
        is_corrupt(rt.alloc(), env, bytes, location)?
    };
    assert!(rt; is_right, "byte {place}");
    change_byte(bytes, place, 255);
    Ok(())
}

/// Asserts that no block is read at these handles.
fn check_blocks_past<E: Env>(
    rt: &(impl Abort + AllocGlobal),
    env: &mut E,
    bytes: &[u8],
) -> Result<()> {
    for (offset, size) in &PAST {
        let location = BlockHandle::new(*offset, *size);
        assert!(rt;
            is_corrupt(rt.alloc(), env, bytes, location)?,
            "{offset} {size}"
        );
    }
    Ok(())
}

/// Asserts that a block is read as the three pairs, and neither damaged nor past the file.
fn check_stored_block<E: Env>(
    rt: &(impl Abort + AllocGlobal),
    env: &mut E,
    bytes: &mut [u8],
    location: BlockHandle,
) -> Result<()> {
    assert!(rt; has_three_pairs(rt.alloc(), env, bytes, location)?);
    for place in 0..bytes.len() {
        check_damaged_block(rt, env, bytes, location, place)?;
    }
    check_blocks_past(rt, env, bytes)
}

/// A block is read as its pairs, and none past the file.
fn check_block<E: Env>(rt: &(impl Abort + AllocGlobal), env: &mut E) -> Result<()> {
    let (mut bytes, location) = stored_pairs(rt.alloc(), 0)?;
    check_stored_block(rt, env, &mut bytes, location)
}

/// Asserts that filters are damaged with a byte of theirs or of their trailer raised, and cut off
/// at that byte.
fn check_damaged_filters<E: Env>(
    rt: &(impl Abort + AllocGlobal),
    env: &mut E,
    bytes: &mut [u8],
    location: BlockHandle,
    place: usize,
) -> Result<()> {
    let code = StatusCode::Corruption;
    let cut = bytes.get(..place).unwrap_or_default();
    assert!(rt;
        filters_fail(rt.alloc(), env, cut, location, code)?,
        "{place} bytes"
    );
    change_byte(bytes, place, 1);
    assert!(rt;
        filters_fail(rt.alloc(), env, bytes, location, code)?,
        "byte {place}"
    );
    change_byte(bytes, place, 255);
    Ok(())
}

/// Asserts that no filters are read at these handles; a size of 0 stands for none.
fn check_filters_past<E: Env>(
    rt: &(impl Abort + AllocGlobal),
    env: &mut E,
    bytes: &[u8],
) -> Result<()> {
    for (offset, size) in &PAST {
        let code = if *size == 0 {
            StatusCode::InvalidArgument
        } else {
            StatusCode::Corruption
        };
        let location = BlockHandle::new(*offset, *size);
        assert!(rt;
            filters_fail(rt.alloc(), env, bytes, location, code)?,
            "{offset} {size}"
        );
    }
    Ok(())
}

/// Asserts that filters are read, and neither damaged ones nor those past the file.
fn check_stored_filters<E: Env>(
    rt: &(impl Abort + AllocGlobal),
    env: &mut E,
    bytes: &mut [u8],
    location: BlockHandle,
) -> Result<()> {
    assert!(rt; are_filters(&filters_at(rt.alloc(), env, bytes, location)?));
    for place in FRONT.len()..bytes.len() {
        check_damaged_filters(rt, env, bytes, location, place)?;
    }
    check_filters_past(rt, env, bytes)
}

/// Whether filters under the id of a compressor are corrupt.
fn compressed_filters_fail<E: Env>(alloc: Global, env: &mut E) -> Result<bool> {
    let (bytes, location) = stored_filter(alloc, 1)?;
    filters_fail(alloc, env, &bytes, location, StatusCode::Corruption)
}

/// Filters are read if they are stored as they are.
fn check_filters<E: Env>(rt: &(impl Abort + AllocGlobal), env: &mut E) -> Result<()> {
    assert!(rt; compressed_filters_fail(rt.alloc(), env)?);
    let (mut bytes, location) = stored_filter(rt.alloc(), 0)?;
    check_stored_filters(rt, env, &mut bytes, location)
}

/// Blocks on a disk in memory.
#[test]
fn block_in_memory(rt: HostRuntime) -> Result<()> {
    check_block(&rt, &mut MemEnv::new(rt.alloc()))
}

/// Blocks whose reads are short.
#[test]
fn block_by_short_reads(rt: HostRuntime) -> Result<()> {
    let mut env = ShortReads::new(MemEnv::new(rt.alloc()));
    check_block(&rt, &mut env)
}

/// Filters on a disk in memory.
#[test]
fn filters_in_memory(rt: HostRuntime) -> Result<()> {
    check_filters(&rt, &mut MemEnv::new(rt.alloc()))
}

/// Filters whose reads are short.
#[test]
fn filters_by_short_reads(rt: HostRuntime) -> Result<()> {
    let mut env = ShortReads::new(MemEnv::new(rt.alloc()));
    check_filters(&rt, &mut env)
}

/// An id without a compressor is named.
#[test]
fn id_without_a_compressor(rt: HostRuntime) -> Result<()> {
    let (bytes, location) = stored_pairs(rt.alloc(), 7)?;
    let mut env = MemEnv::new(rt.alloc());
    let answer = block_at(rt.alloc(), &mut env, &bytes, location);
    let text = "invalid compression id `7`";
    assert!(rt; failed_saying(answer, StatusCode::NotSupported, text)?);
    Ok(())
}

/// A block of one pair, whose value has 1300000 bytes.
fn long_block(alloc: Global) -> Result<BlockContents> {
    let mut value = Vec::new(alloc);
    for _ in 0..100000usize {
        value.extend_from_slice(b"thirteen long")?;
    }
    one_pair(alloc, &value)
}

/// More bytes than there is room for in a step, each at its offset.
#[test]
fn in_steps(rt: HostRuntime) -> Result<()> {
    let mut env = MemEnv::new(rt.alloc());
    let block = long_block(rt.alloc())?;
    let (bytes, location) = file_bytes(rt.alloc(), block.as_slice(), 0)?;
    let read = block_at(rt.alloc(), &mut env, &bytes, location)?;
    assert!(rt; read.contents()?.as_slice() == block.as_slice());
    let past = BlockHandle::new(FRONT.len(), block.len().saturating_add(5));
    let answer = block_at(rt.alloc(), &mut env, &bytes, past);
    let text = "Corruption: block at 5: past the end of the file";
    assert!(rt; failed_saying(answer, StatusCode::Corruption, text)?);
    Ok(())
}

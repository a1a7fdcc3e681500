//! Filter blocks built and read, under a policy whose filters show the keys that they were made of.

use leveldb_base::error::{Result, StatusCode, err};
use leveldb_env::filter::{BloomPolicy, FilterPolicy};
use leveldb_env::filter_block::{FilterBlockBuilder, FilterBlockReader};
use leveldb_env::laws::{added_keys_pass, filter_blocks_have_one_reading};
use std::alloc::Global;
use std::process::Abort;
use support::failed_with;

/// A filter is the keys, one after the other, which are at most `limit` bytes. A longer key is none
/// of them.
#[derive(Clone, Copy)]
struct JoinedKeys {
    limit: usize,
}

impl FilterPolicy for JoinedKeys {
    ghost name = { ? };

    ghost filter_for = { ? };

    ghost too_large = { ? };

    ghost matches = { ? };

    fn name(&self) -> &'static str {
        "joined"
    }

    fn create_filter(&self, alloc: Global, keys: &[u8], key_offsets: &[usize]) -> Result<Vec<u8>> {
        let joined = joined_keys(alloc, keys, key_offsets)?;
        if joined.len() > self.limit {
            return err(alloc, StatusCode::NotSupported, "too many keys");
        }
        Ok(joined)
    }

    fn key_may_match(&self, key: &[u8], filter: &[u8]) -> bool {
        key.len() <= filter.len()
    }

    ghost finds = { ? };
}

// The bytes from each offset on to the next one, or to the end.
fn joined_keys(alloc: Global, keys: &[u8], key_offsets: &[usize]) -> Result<Vec<u8>> {
    let mut joined = Vec::new(alloc);
    for i in 0..key_offsets.len() {
        joined.extend_from_slice(key_of(keys, key_offsets, i))?;
    }
    Ok(joined)
}

// The key of this index.
fn key_of<'a>(keys: &'a [u8], key_offsets: &[usize], index: usize) -> &'a [u8] {
    let begin = key_offsets[index].min(keys.len());
    let end = if index + 1 < key_offsets.len() {
        key_offsets[index + 1]
    } else {
        keys.len()
    };
    &keys[begin..end.min(keys.len()).max(begin)]
}

const POLICY: JoinedKeys = JoinedKeys { limit: 100 };

const LETTERS: &[u8] = b"abcdefghijklmnopqrstuvwxyz";

/// Two blocks of the same four keys, at 0 and at 5000, so that the second of three filters is
/// empty.
const BLOCK: &[u8] = b"abcdefghijklmnopqrstuvwxyzabcdefghijklmnopqrstuvwxyz\
\0\0\0\0\x1a\0\0\0\x1a\0\0\0\x34\0\0\0\x0b";

fn add_keys<FP: FilterPolicy>(builder: &mut FilterBlockBuilder<FP>) -> Result<()> {
    builder.add_key(b"abcd")?;
    builder.add_key(b"efgh")?;
    builder.add_key(b"ijkl")?;
    builder.add_key(b"mnopqrstuvwxyz")
}

/// Adds the keys of two blocks, at 0 and at 5000; a third block has the second one's filter.
fn add_blocks<FP: FilterPolicy>(builder: &mut FilterBlockBuilder<FP>) -> Result<()> {
    builder.start_block(0)?;
    add_keys(builder)?;
    builder.start_block(5000)?;
    builder.start_block(6143)?;
    add_keys(builder)
}

fn reader_of(alloc: Global, bytes: &[u8]) -> Result<FilterBlockReader<JoinedKeys>> {
    FilterBlockReader::new_owned(alloc, POLICY, Vec::from_slice(alloc, bytes)?)
}

#[test]
fn built(rt: HostRuntime) -> Result<()> {
    let mut builder = FilterBlockBuilder::new(rt.alloc(), POLICY);
    assert!(rt; builder.filter_name() == "joined");
    add_blocks(&mut builder)?;
    assert!(rt; builder.finish()?.as_slice() == BLOCK);
    Ok(())
}

/// The estimate once a block begins at this offset.
fn estimate_at(builder: &mut FilterBlockBuilder<JoinedKeys>, offset: usize) -> Result<usize> {
    builder.start_block(offset)?;
    Ok(builder.size_estimate())
}

/// The estimates before any block, once one begins at 0, once it has keys, and once blocks begin at
/// 5000 and at 6143.
fn estimates_of(builder: &mut FilterBlockBuilder<JoinedKeys>) -> Result<[usize; 5]> {
    let before = builder.size_estimate();
    let begun = estimate_at(builder, 0)?;
    add_keys(builder)?;
    let added = builder.size_estimate();
    let made = estimate_at(builder, 5000)?;
    let again = estimate_at(builder, 6143)?;
    Ok([before, begun, added, made, again])
}

/// Keys count once their filter is made.
#[test]
fn estimates(rt: HostRuntime) -> Result<()> {
    let mut builder = FilterBlockBuilder::new(rt.alloc(), POLICY);
    assert!(rt; estimates_of(&mut builder)? == [5, 5, 5, 39, 39]);
    Ok(())
}

#[test]
fn built_of_nothing(rt: HostRuntime) -> Result<()> {
    let block = FilterBlockBuilder::new(rt.alloc(), &POLICY).finish()?;
    assert!(rt; block.as_slice() == b"\0\0\0\0\x0b".as_slice());
    let reader = FilterBlockReader::new_owned(rt.alloc(), &POLICY, block)?;
    assert!(rt; reader.num() == 0 && reader.key_may_match(0, LETTERS));
    Ok(())
}

#[test]
fn built_of_an_empty_key(rt: HostRuntime) -> Result<()> {
    let mut builder = FilterBlockBuilder::new(rt.alloc(), &POLICY);
    builder.add_key(b"")?;
    builder.start_block(4096)?;
    assert!(rt; builder.size_estimate() == 13);
    let block = builder.finish()?;
    assert!(rt; block.as_slice() == b"\0\0\0\0\0\0\0\0\0\0\0\0\x0b".as_slice());
    Ok(())
}

/// The letters and a byte after them.
const LONGER: &[u8] = b"abcdefghijklmnopqrstuvwxyz.";

/// Offsets and keys, and whether the filters let the key pass.
const MATCHES: [(usize, &[u8], bool); 13] = [
    (0, LETTERS, true),
    (0, LONGER, false),
    (2047, LETTERS, true),
    (2047, LONGER, false),
    (2048, b"", true),
    (2048, b"a", false),
    (4095, b"a", false),
    (4096, LETTERS, true),
    (5000, LONGER, false),
    (6143, LETTERS, true),
    (6143, LONGER, false),
    (6144, LONGER, true),
    (usize::MAX, LONGER, true),
];

#[test]
fn read(rt: HostRuntime) -> Result<()> {
    let reader = reader_of(rt.alloc(), BLOCK)?;
    assert!(rt; reader.num() == 3);
    for (offset, key, matches) in &MATCHES {
        assert!(rt; reader.key_may_match(*offset, key) == *matches, "{offset}");
    }
    Ok(())
}

const MALFORMED: [&[u8]; 8] = [
    b"",
    b"\0\0\0\x0b",
    b"\0\0\0\0\x0c",
    b"\x01\0\0\0\x0b",
    b"a\0\0\0\0\x0b",
    b"a\x01\0\0\0\x0b",
    b"a\x01\0\0\0\x01\0\0\0\x0b",
    b"a\0\0\0\0\x02\0\0\0\x01\0\0\0\x0b",
];

fn is_malformed(alloc: Global, bytes: &[u8]) -> Result<bool> {
    failed_with(reader_of(alloc, bytes), StatusCode::Corruption)
}

#[test]
fn malformed(rt: HostRuntime) -> Result<()> {
    for bytes in &MALFORMED {
        assert!(rt; is_malformed(rt.alloc(), bytes)?, "{bytes:?}");
    }
    Ok(())
}

#[test]
fn cut_anywhere(rt: HostRuntime) -> Result<()> {
    for end in 0..BLOCK.len() {
        assert!(rt; is_malformed(rt.alloc(), &BLOCK[..end])?, "{end} bytes");
    }
    Ok(())
}

/// The block with the byte at `offset` raised by one.
fn raised(alloc: Global, offset: usize) -> Result<Vec<u8>> {
    let mut bytes = Vec::from_slice(alloc, BLOCK)?;
    if let Some(byte) = bytes.get_mut(offset) {
        *byte = byte.wrapping_add(1);
    }
    Ok(bytes)
}

/// How many filters a block has, and whether that at 2048 matches.
fn filters_of(alloc: Global, bytes: &[u8]) -> Result<(usize, bool)> {
    let reader = reader_of(alloc, bytes)?;
    Ok((reader.num(), reader.key_may_match(2048, b"a")))
}

/// A raised byte of a filter, and of the offset between the last two filters, makes another block.
/// Any other makes none.
#[test]
fn each_byte_raised(rt: HostRuntime) -> Result<()> {
    for offset in 0..BLOCK.len() {
        let bytes = raised(rt.alloc(), offset)?;
        if offset < 52 || offset == 60 {
            assert!(rt;
                filters_of(rt.alloc(), &bytes)? == (3, offset == 60),
                "{offset}"
            );
        } else {
            assert!(rt; is_malformed(rt.alloc(), &bytes)?, "{offset}");
        }
    }
    Ok(())
}

/// Keys that the policy does not take leave the builder as it was.
#[test]
fn too_large(rt: HostRuntime) -> Result<()> {
    let mut builder = FilterBlockBuilder::new(rt.alloc(), JoinedKeys { limit: 25 });
    add_keys(&mut builder)?;
    let answer = builder.start_block(2048);
    assert!(rt; failed_with(answer, StatusCode::NotSupported)?);
    assert!(rt; builder.size_estimate() == 5);
    let answer = builder.finish();
    assert!(rt; failed_with(answer, StatusCode::NotSupported)?);
    Ok(())
}

/// Adds a key of a block at `offset`, another of the same block, and one of a block at `next`.
fn add_and_go_on<FP: FilterPolicy>(
    builder: &mut FilterBlockBuilder<FP>,
    offset: usize,
    next: usize,
    key: &[u8],
) -> Result<()> {
    builder.start_block(offset)?;
    builder.add_key(key)?;
    builder.add_key(b"another")?;
    builder.start_block(next)?;
    builder.add_key(b"next")?;
    Ok(())
}

/// A key of those that a block has, looked for in the finished filter block under any policy.
fn is_found<FP: FilterPolicy + Copy + Drop>(
    alloc: Global,
    policy: FP,
    offset: usize,
    next: usize,
    key: &[u8],
) -> Result<bool> {
    let mut builder = FilterBlockBuilder::new(alloc, policy);
    add_and_go_on(&mut builder, offset, next, key)?;
    let block = builder.finish()?;
    let reader = FilterBlockReader::new_owned(alloc, policy, block)?;
    Ok(reader.key_may_match(offset, key))
}

#[test]
fn found(rt: HostRuntime) -> Result<()> {
    filter_blocks_have_one_reading();
    added_keys_pass(&POLICY);
    for (offset, next) in [(0, 2047), (0, 2048), (2048, 9000), (5000, 5000)] {
        assert!(rt; is_found(rt.alloc(), &POLICY, offset, next, LETTERS)?);
    }
    Ok(())
}

/// The block that LevelDB makes of two blocks with these four keys, at 0 and at 5000, under 32 bits
/// a key.
const BLOOM_BLOCK: [u8; 51] = [
    234, 195, 25, 155, 61, 141, 173, 140, 221, 28, 222, 92, 220, 112, 234, 227, 22, 234, 195, 25,
    155, 61, 141, 173, 140, 221, 28, 222, 92, 220, 112, 234, 227, 22, 0, 0, 0, 0, 17, 0, 0, 0, 17,
    0, 0, 0, 34, 0, 0, 0, 11,
];

/// Adds the keys of two blocks, at 0 and at 5000.
fn add_two_blocks(builder: &mut FilterBlockBuilder<BloomPolicy>) -> Result<()> {
    builder.start_block(0)?;
    add_keys(builder)?;
    builder.start_block(5000)?;
    add_keys(builder)
}

#[test]
fn bloom_block(rt: HostRuntime) -> Result<()> {
    let mut builder = FilterBlockBuilder::new(rt.alloc(), BloomPolicy::new(32));
    add_two_blocks(&mut builder)?;
    assert!(rt; builder.finish()?.as_slice() == BLOOM_BLOCK.as_slice());
    Ok(())
}

const STORED: [&[u8]; 4] = [b"abcd", b"efgh", b"ijkl", b"mnopqrstuvwxyz"];

const OTHERS: [&[u8]; 3] = [b"xsb", b"9sad", b"assssaaaass"];

/// Asserts that at an offset the stored keys match and no other does.
fn assert_stored(rt: &impl Abort, reader: &FilterBlockReader<BloomPolicy>, offset: usize) {
    for key in &STORED {
        assert!(rt; reader.key_may_match(offset, key), "{offset}");
    }
    for key in &OTHERS {
        assert!(rt; !reader.key_may_match(offset, key), "{offset}");
    }
}

#[test]
fn bloom_block_is_read(rt: HostRuntime) -> Result<()> {
    let block = Vec::from_slice(rt.alloc(), &BLOOM_BLOCK)?;
    let reader = FilterBlockReader::new_owned(rt.alloc(), BloomPolicy::new(32), block)?;
    assert!(rt; reader.num() == 3);
    for offset in [0, 1024, 5000, 6025] {
        assert_stored(&rt, &reader, offset);
    }
    Ok(())
}

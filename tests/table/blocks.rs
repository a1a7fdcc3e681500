//! Blocks read and walked both ways, and compared with a slow reader of their grammar.
use super::checks::Given;
use byteorder::{ByteOrder, LittleEndian};
use bytes::Bytes;
use leveldb_base::cmp::DefaultCmp;
use leveldb_base::error::{Result, StatusCode};
use leveldb_base::types::{LdbIterator, current_key_val};
use leveldb_base::varint::get_varint32;
use leveldb_table::block::{Block, BlockIter};
use std::alloc::Global;
use std::process::Abort;
use support::{change_byte, failed_with};

/// The keys "", a, ab, abc and b, with the values 0 to 4 and restart points at the first and the
/// fourth.
const SMALL: [u8; 38] = [
    0, 0, 1, b'0', 0, 1, 1, b'a', b'1', 1, 1, 1, b'b', b'2', 0, 3, 1, b'a', b'b', b'c', b'3', 0, 1,
    1, b'b', b'4', 0, 0, 0, 0, 14, 0, 0, 0, 2, 0, 0, 0,
];

/// The pairs of that block.
const PAIRS: [Given<'static>; 5] = [
    (b"", b"0"),
    (b"a", b"1"),
    (b"ab", b"2"),
    (b"abc", b"3"),
    (b"b", b"4"),
];

fn pair(index: usize) -> Option<Given<'static>> {
    PAIRS.as_slice().get(index).copied()
}

fn block_of(alloc: Global, bytes: &[u8]) -> Result<Block<DefaultCmp>> {
    let contents = Bytes::from_vec(Vec::from_slice(alloc, bytes)?)?;
    Block::new(alloc, DefaultCmp, contents)
}

#[test]
fn empty_block(rt: HostRuntime) -> Result<()> {
    let block = block_of(rt.alloc(), &[0, 0, 0, 0, 1, 0, 0, 0])?;
    let mut it = block.iter(rt.alloc());
    assert!(rt; !it.advance()?);
    it.seek_to_last()?;
    assert!(rt; !it.valid());
    it.seek(b"")?;
    assert!(rt; !it.valid() && !it.prev()?);
    assert!(rt; block.contents()?.len() == 8);
    Ok(())
}

// Whether an iterator is at the pair with this index, or at no position past the last.
fn is_at(it: &BlockIter<'_, DefaultCmp>, index: usize) -> bool {
    it.current() == pair(index)
}

// Whether a step goes to the pair with this index.
fn steps_to(it: &mut BlockIter<'_, DefaultCmp>, index: usize) -> Result<bool> {
    Ok(it.advance()? && is_at(it, index))
}

// Whether a step back goes from the pair with this index to the one before it.
fn steps_back(it: &mut BlockIter<'_, DefaultCmp>, index: usize) -> Result<bool> {
    Ok(is_at(it, index) && it.prev()? == (index > 0))
}

/// Whether a step goes to the pair with this index, and again once there was a step back. Before
/// the first pair there is no step back.
fn turns_at(it: &mut BlockIter<'_, DefaultCmp>, index: usize) -> Result<bool> {
    if !steps_to(it, index)? {
        return Ok(false);
    }
    if index == 0 {
        return Ok(true);
    }
    Ok(it.prev()? && is_at(it, index - 1) && steps_to(it, index)?)
}

/// Forward over all pairs, with a turn at each; the empty key is a position like any other.
fn assert_forward(rt: &impl Abort, it: &mut BlockIter<'_, DefaultCmp>) -> Result<()> {
    for index in 0..5usize {
        assert!(rt; turns_at(it, index)?, "pair {index}");
    }
    assert!(rt; !it.advance()? && it.current().is_none());
    assert!(rt; !it.prev()?);
    Ok(())
}

/// Back over all pairs.
fn assert_back(rt: &impl Abort, it: &mut BlockIter<'_, DefaultCmp>) -> Result<()> {
    it.seek_to_last()?;
    for index in (0..5usize).rev() {
        assert!(rt; steps_back(it, index)?, "pair {index}");
    }
    assert!(rt; !it.valid());
    Ok(())
}

/// Both ways over all pairs, to the first again, and to no position.
fn assert_walks(rt: &impl Abort, it: &mut BlockIter<'_, DefaultCmp>) -> Result<()> {
    assert_forward(rt, it)?;
    assert_back(rt, it)?;
    it.seek_to_first()?;
    assert!(rt; is_at(it, 0));
    it.reset();
    assert!(rt; it.current().is_none());
    Ok(())
}

#[test]
fn walks(rt: HostRuntime) -> Result<()> {
    let block = block_of(rt.alloc(), &SMALL)?;
    let mut it = block.iter(rt.alloc());
    assert_walks(&rt, &mut it)
}

/// Keys, and the index of the first pair at or after each.
const SEEKS: [(&[u8], usize); 10] = [
    (b"", 0),
    (b"\0", 1),
    (b"a", 1),
    (b"aa", 2),
    (b"ab", 2),
    (b"abb", 3),
    (b"abc", 3),
    (b"abd", 4),
    (b"b", 4),
    (b"c", 5),
];

/// Seeks to each key, and a step back from no position.
fn assert_seeks(rt: &impl Abort, it: &mut BlockIter<'_, DefaultCmp>) -> Result<()> {
    for (key, index) in &SEEKS {
        it.seek(key)?;
        assert!(rt; is_at(it, *index), "at {key:?}");
    }
    assert!(rt; !it.prev()?);
    Ok(())
}

#[test]
fn seeks(rt: HostRuntime) -> Result<()> {
    let copy = block_of(rt.alloc(), &SMALL)?.clone()?;
    let mut it = copy.iter(rt.alloc());
    assert_seeks(&rt, &mut it)
}

/// Bytes that are too few, restart points that aren't offsets of entries, and keys that don't rise.
const MALFORMED: [&[u8]; 7] = [
    &[],
    &[1, 0, 0, 0],
    &[0, 0, 0, 0],
    &[1, 0, 0, 0, 1, 0, 0, 0],
    &[0, 1, 0, b'b', 0, 1, 0, b'a', 0, 0, 0, 0, 1, 0, 0, 0],
    &[0, 1, 0, b'a', 2, 1, 0, b'b', 0, 0, 0, 0, 1, 0, 0, 0],
    &[
        0, 1, 0, b'a', 1, 1, 0, b'b', 0, 0, 0, 0, 4, 0, 0, 0, 2, 0, 0, 0,
    ],
];

#[test]
fn malformed_bytes_are_corrupt(rt: HostRuntime) -> Result<()> {
    for bytes in &MALFORMED {
        let answer = block_of(rt.alloc(), bytes);
        assert!(rt; failed_with(answer, StatusCode::Corruption)?, "{bytes:?}");
    }
    Ok(())
}

type Pairs = Vec<(Vec<u8>, Vec<u8>)>;

/// A number at the front, and what follows.
fn number(bytes: &[u8]) -> Option<(usize, &[u8])> {
    let (n, used) = get_varint32(bytes)?;
    Some((n as usize, bytes.get(used..)?))
}

/// The three lengths of an entry, its texts, and what follows.
#[derive(Clone, Copy)]
struct RawEntry<'a> {
    shared: usize,
    rest: &'a [u8],
    value: &'a [u8],
    left: &'a [u8],
}

fn read_raw(bytes: &[u8]) -> Option<RawEntry<'_>> {
    let (shared, bytes) = number(bytes)?;
    let (rest_length, bytes) = number(bytes)?;
    let (value_length, bytes) = number(bytes)?;
    let (rest, bytes) = bytes.split_at_checked(rest_length)?;
    let (value, left) = bytes.split_at_checked(value_length)?;
    Some(RawEntry {
        shared,
        rest,
        value,
        left,
    })
}

/// The restart points rise from 0, and each further one is among the starts.
fn points_fit(points: &[u8], starts: &Vec<usize>) -> bool {
    let mut before = None;
    for point in points.chunks_exact(4) {
        let offset = LittleEndian::read_u32(point) as usize;
        let fits = match before {
            None => offset == 0,
            Some(last) => last < offset && starts.contains(&offset),
        };
        if !fits {
            return false;
        }
        before = Some(offset);
    }
    before.is_some()
}

/// The bytes of a block's entries, and those of its restart points.
fn raw_parts(bytes: &[u8]) -> Option<(&[u8], &[u8])> {
    let end = bytes.len().checked_sub(4)?;
    let (front, last) = bytes.split_at(end);
    let limit = end.checked_sub(4 * LittleEndian::read_u32(last) as usize)?;
    Some(front.split_at(limit))
}

/// Adds an entry's pair, whose key has as many bytes of the key before it as the entry says.
/// Returns whether there are so many and the key is after the one before it.
fn add_pair(alloc: Global, pairs: &mut Pairs, entry: RawEntry<'_>) -> Result<bool> {
    let before = match pairs.last() {
        Some((key, _)) => key.as_slice(),
        None => b"".as_slice(),
    };
    let Some(shared) = before.get(..entry.shared) else {
        return Ok(false);
    };
    let mut key = shared.to_vec(alloc)?;
    key.extend_from_slice(entry.rest)?;
    if !pairs.is_empty() && before >= key.as_slice() {
        return Ok(false);
    }
    pairs.push((key, entry.value.to_vec(alloc)?))?;
    Ok(true)
}

/// The pairs of a block, read from its grammar alone.
fn slow_pairs(alloc: Global, bytes: &[u8]) -> Result<Option<Pairs>> {
    let Some((entries, points)) = raw_parts(bytes) else {
        return Ok(None);
    };
    let mut pairs = Vec::new(alloc);
    let mut starts = Vec::new(alloc);
    let mut left = entries;
    for _ in 0..entries.len() {
        let Some(entry) = read_raw(left) else {
            break;
        };
        if entry.shared == 0 {
            starts.push(entries.len().saturating_sub(left.len()))?;
        }
        if !add_pair(alloc, &mut pairs, entry)? {
            return Ok(None);
        }
        left = entry.left;
    }
    let is_block = left.is_empty() && points_fit(points, &starts);
    Ok(if is_block { Some(pairs) } else { None })
}

/// Whether a walk goes over exactly these pairs.
fn has_pairs(alloc: Global, it: &mut BlockIter<'_, DefaultCmp>, pairs: &Pairs) -> Result<bool> {
    for pair in pairs {
        if !it.advance()? || current_key_val(alloc, it)?.as_ref() != Some(pair) {
            return Ok(false);
        }
    }
    Ok(!it.advance()?)
}

/// Whether bytes are no block where the slow reader finds none, and otherwise a block that walks
/// over the same pairs.
fn same_as_slow(alloc: Global, bytes: &[u8]) -> Result<bool> {
    match (block_of(alloc, bytes), slow_pairs(alloc, bytes)?) {
        (Ok(block), Some(pairs)) => has_pairs(alloc, &mut block.iter(alloc), &pairs),
        (answer, pairs) => Ok(failed_with(answer, StatusCode::Corruption)? && pairs.is_none()),
    }
}

#[test]
fn cut_blocks(rt: HostRuntime) -> Result<()> {
    assert!(rt; same_as_slow(rt.alloc(), &SMALL)?);
    for length in 0..SMALL.len() {
        assert!(rt;
            same_as_slow(rt.alloc(), &SMALL[..length])?,
            "{length} bytes"
        );
    }
    Ok(())
}

/// A small block whose byte at `place` is raised by each amount.
fn assert_raised(rt: &(impl Abort + AllocGlobal), place: usize) -> Result<()> {
    for by in 1..=255u8 {
        let mut bytes = SMALL;
        change_byte(&mut bytes, place, by);
        assert!(rt; same_as_slow(rt.alloc(), &bytes)?, "{bytes:?}");
    }
    Ok(())
}

#[test]
fn raised_bytes(rt: HostRuntime) -> Result<()> {
    for place in 0..SMALL.len() {
        assert_raised(&rt, place)?;
    }
    Ok(())
}

//! A table's pairs: of the footer the index, and of each of its lines a block. What the definition
//! of a table asks for is checked, but for filters, of blocks that are stored as they are.
use byteorder::{ByteOrder, LittleEndian};
use leveldb_base::blockhandle::BlockHandle;
use leveldb_base::cmp::{Cmp, DefaultCmp};
use leveldb_base::crc::{crc32, mask_crc};
use leveldb_base::error::Result;
use leveldb_base::key_types::{TAG_LEN, cmp_internal_key};
use leveldb_base::varint::get_varint32;
use std::alloc::Global;
use std::cmp::Ordering;

/// A key and its value.
pub type Pair = (Vec<u8>, Vec<u8>);

/// The number with which a table ends.
const MAGIC: [u8; 8] = [0x57, 0xfb, 0x80, 0x8b, 0x24, 0x75, 0x47, 0xdb];

/// The footer's handles and padding.
const HANDLES: usize = 40;

/// The restart points of a block without entries.
const ONE_POINT: [u8; 4] = [0; 4];

// ---- blocks

/// A number at the front, and the bytes after it.
fn number(bytes: &[u8]) -> Option<(usize, &[u8])> {
    let (value, length) = get_varint32(bytes)?;
    Some((value as usize, bytes.get(length..)?))
}

/// The block at a handle, where it is stored as it is and its checksum is right.
fn block_at<'a>(file: &'a [u8], handle: &BlockHandle) -> Option<&'a [u8]> {
    let from = file.get(handle.offset()..)?;
    let (summed, rest) = from.split_at_checked(handle.size().checked_add(1)?)?;
    let sum = rest.get(..4)?;
    let (block, id) = summed.split_at_checked(handle.size())?;
    if *id.first()? == 0 && LittleEndian::read_u32(sum) == mask_crc(crc32(summed)) {
        Some(block)
    } else {
        None
    }
}

/// The entries of a block, and its restart points.
fn split_block(block: &[u8]) -> Option<(&[u8], &[u8])> {
    let (rest, count) = block.split_at_checked(block.len().checked_sub(4)?)?;
    if count.len() < 4 {
        return None;
    }
    let points = (LittleEndian::read_u32(count) as usize).checked_mul(4)?;
    rest.split_at_checked(rest.len().checked_sub(points)?)
}

/// Whether a restart point names the entry at an offset, and the points after it.
fn after_point(points: &[u8], offset: usize) -> (bool, &[u8]) {
    match points.split_at_checked(4) {
        Some((point, later)) if LittleEndian::read_u32(point) as usize == offset => (true, later),
        _ => (false, points),
    }
}

/// The parts of an entry: how many bytes of the key before it are shared, the rest of the key, the
/// value, and the bytes after them.
fn entry_parts(entries: &[u8]) -> Option<(usize, &[u8], &[u8], &[u8])> {
    let (shared, rest) = number(entries)?;
    let (key, rest) = number(rest)?;
    let (value, rest) = number(rest)?;
    let (key, rest) = rest.split_at_checked(key)?;
    let (value, rest) = rest.split_at_checked(value)?;
    Some((shared, key, value, rest))
}

/// The key with these bytes in place of those that aren't shared.
fn key_after(alloc: Global, last: &[u8], shared: usize, rest: &[u8]) -> Result<Option<Vec<u8>>> {
    let Some(front) = last.get(..shared) else {
        return Ok(None);
    };
    let mut key = Vec::from_slice(alloc, front)?;
    key.extend_from_slice(rest)?;
    Ok(Some(key))
}

/// The pairs of entries, the first of which a restart point names. None if they are damaged, or if
/// a point names no entry, or one that shares bytes.
fn pairs_from(alloc: Global, all: &[u8], points: &[u8]) -> Result<Option<Vec<Pair>>> {
    let mut entries = all;
    let mut points = points;
    let mut pairs = Vec::new(alloc);
    let mut last = Vec::new(alloc);
    for _ in 0..all.len() {
        if entries.is_empty() {
            break;
        }
        let Some((shared, rest, value, later)) = entry_parts(entries) else {
            return Ok(None);
        };
        let (named, next) = after_point(points, all.len().saturating_sub(entries.len()));
        let Some(key) = key_after(alloc, last.as_slice(), shared, rest)? else {
            return Ok(None);
        };
        if named && shared > 0 || !named && pairs.is_empty() {
            return Ok(None);
        }
        last = key.clone()?;
        pairs.push((key, Vec::from_slice(alloc, value)?))?;
        entries = later;
        points = next;
    }
    if entries.is_empty() && points.is_empty() {
        Ok(Some(pairs))
    } else {
        Ok(None)
    }
}

/// The pairs of a block, or none if it is damaged. A block without entries has one restart point.
fn pairs_of(alloc: Global, block: &[u8]) -> Result<Option<Vec<Pair>>> {
    match split_block(block) {
        Some((entries, points)) if !entries.is_empty() => pairs_from(alloc, entries, points),
        Some((_, points)) if points == ONE_POINT.as_slice() => Ok(Some(Vec::new(alloc))),
        _ => Ok(None),
    }
}

/// The pairs of the block at a handle.
fn pairs_at(alloc: Global, file: &[u8], handle: &BlockHandle) -> Result<Option<Vec<Pair>>> {
    match block_at(file, handle) {
        Some(block) => pairs_of(alloc, block),
        None => Ok(None),
    }
}

// ---- the order of keys

/// Whether keys rise by their bytes.
fn bytes_rise(pairs: &[Pair]) -> bool {
    let later = pairs.get(1..).unwrap_or_default();
    pairs.iter().zip(later.iter()).all(|(a, b)| {
        DefaultCmp.cmp(a.0.as_slice(), b.0.as_slice()) == Ordering::Less
    })
}

/// Whether keys have tags and rise as internal keys do.
fn keys_rise<C: Cmp>(cmp: &C, pairs: &[Pair]) -> bool {
    let later = pairs.get(1..).unwrap_or_default();
    pairs.iter().all(|pair| pair.0.len() >= TAG_LEN)
        && pairs.iter().zip(later.iter()).all(|(a, b)| {
            cmp_internal_key(cmp, a.0.as_slice(), b.0.as_slice()) == Ordering::Less
        })
}

/// Whether a line of the index is before all keys of the block of the next one.
fn is_before<C: Cmp>(cmp: &C, line: &Pair, block: &[Pair]) -> bool {
    block.iter().all(|pair| cmp_internal_key(cmp, line.0.as_slice(), pair.0.as_slice())
        == Ordering::Less)
}

/// Whether a line of the index is before no key of its own block, which has some.
fn is_at_end<C: Cmp>(cmp: &C, line: &Pair, block: &[Pair]) -> bool {
    !block.is_empty()
        && block.iter().all(|pair| cmp_internal_key(cmp, line.0.as_slice(), pair.0.as_slice())
            != Ordering::Less)
}

// ---- the table

/// The handle that is all of these bytes.
fn whole_handle(bytes: &[u8]) -> Option<BlockHandle> {
    let (handle, used) = BlockHandle::decode(bytes)?;
    if used == bytes.len() {
        Some(handle)
    } else {
        None
    }
}

/// The handles of the metaindex and of the index, by the last 48 bytes of a table.
fn footer_of(file: &[u8]) -> Option<(BlockHandle, BlockHandle)> {
    let (_, footer) = file.split_at_checked(file.len().checked_sub(HANDLES + MAGIC.len())?)?;
    let (handles, magic) = footer.split_at_checked(HANDLES)?;
    let (meta, used) = BlockHandle::decode(handles)?;
    let rest = handles.get(used..)?;
    let (index, used) = BlockHandle::decode(rest)?;
    if magic == MAGIC.as_slice() && rest.get(used..)?.iter().all(|byte| *byte == 0) {
        Some((meta, index))
    } else {
        None
    }
}

/// The pairs of the data block that a line of the index names, where the line fits them.
fn part_at<C: Cmp>(
    alloc: Global,
    cmp: &C,
    file: &[u8],
    before: Option<&Pair>,
    line: &Pair,
) -> Result<Option<Vec<Pair>>> {
    let Some(handle) = whole_handle(line.1.as_slice()) else {
        return Ok(None);
    };
    let Some(block) = pairs_at(alloc, file, &handle)? else {
        return Ok(None);
    };
    let parted = match before {
        Some(before) => is_before(cmp, before, block.as_slice()),
        None => true,
    };
    if parted && is_at_end(cmp, line, block.as_slice()) {
        Ok(Some(block))
    } else {
        Ok(None)
    }
}

/// The pairs of all data blocks that an index names.
fn pairs_by_lines<C: Cmp>(
    alloc: Global,
    cmp: &C,
    file: &[u8],
    lines: &[Pair],
) -> Result<Option<Vec<Pair>>> {
    let mut pairs = Vec::new(alloc);
    let mut before = None;
    for line in lines {
        let Some(block) = part_at(alloc, cmp, file, before, line)? else {
            return Ok(None);
        };
        for pair in block {
            pairs.push(pair)?;
        }
        before = Some(line);
    }
    Ok(Some(pairs))
}

/// The pairs of a table, or none if the file is no table of blocks that are stored as they are.
pub fn table_pairs<C: Cmp>(alloc: Global, cmp: &C, file: &[u8]) -> Result<Option<Vec<Pair>>> {
    let Some((meta, index)) = footer_of(file) else {
        return Ok(None);
    };
    let (Some(metas), Some(lines)) = (
        pairs_at(alloc, file, &meta)?,
        pairs_at(alloc, file, &index)?,
    ) else {
        return Ok(None);
    };
    let Some(pairs) = pairs_by_lines(alloc, cmp, file, lines.as_slice())? else {
        return Ok(None);
    };
    if bytes_rise(metas.as_slice())
        && keys_rise(cmp, lines.as_slice())
        && keys_rise(cmp, pairs.as_slice())
    {
        Ok(Some(pairs))
    } else {
        Ok(None)
    }
}

//! Compressors, and lists of them.

use leveldb_base::error::{Result, Status, StatusCode};
use leveldb_env::compressor::{Compressor, CompressorList, NoneCompressor};
use std::alloc::Global;
use support::Raised;

// A block that is stored and read again, by any compressor. An error is that of encoding this very
// block, or out of memory.
fn read_again<C: Compressor>(compressor: C, alloc: Global, block: Vec<u8>) -> Result<Vec<u8>> {
    let stored = compressor.encode(alloc, block)?;
    compressor.decode(alloc, stored)
}

// Whether a block is stored as these bytes.
fn is_stored_as<C: Compressor>(
    compressor: C,
    alloc: Global,
    block: &[u8],
    stored: &[u8],
) -> Result<bool> {
    let found = compressor.encode(alloc, block.to_vec(alloc)?)?;
    Ok(found.as_slice() == stored)
}

// Whether a block is the same once it was stored and read.
fn is_read_again<C: Compressor>(compressor: C, alloc: Global, block: &[u8]) -> Result<bool> {
    let read = read_again(compressor, alloc, block.to_vec(alloc)?)?;
    Ok(read.as_slice() == block)
}

const BLOCK: &[u8] = &[0, 1, 254, 255];

#[test]
fn compressors(rt: HostRuntime) -> Result<()> {
    assert!(rt; is_stored_as(NoneCompressor, rt.alloc(), BLOCK, BLOCK)?);
    assert!(rt; is_stored_as(Raised, rt.alloc(), BLOCK, &[1, 2, 255, 0])?);
    assert!(rt; is_read_again(Raised, rt.alloc(), BLOCK)?);
    assert!(rt; is_read_again(NoneCompressor, rt.alloc(), BLOCK)?);
    Ok(())
}

// What stored bytes decode to under a list's compressor of this id.
fn decode(list: &CompressorList, alloc: Global, id: u8, stored: &[u8]) -> Result<Vec<u8>> {
    list.get(alloc, id)?.decode(alloc, stored.to_vec(alloc)?)
}

// Whether stored bytes decode to a block under a list's compressor of this id.
fn decodes_to(
    list: &CompressorList,
    alloc: Global,
    id: u8,
    stored: &[u8],
    block: &[u8],
) -> Result<bool> {
    Ok(decode(list, alloc, id, stored)?.as_slice() == block)
}

#[test]
fn default_list(rt: HostRuntime) -> Result<()> {
    assert!(rt; !CompressorList::new().is_set(0));
    let list = CompressorList::default();
    assert!(rt; list.is_set(0) && !list.is_set(7));
    assert!(rt; decodes_to(&list, rt.alloc(), 0, &[5, 6], &[5, 6])?);
    Ok(())
}

#[test]
fn list_with_a_compressor(rt: HostRuntime) -> Result<()> {
    let mut list = CompressorList::default();
    list.set::<Raised>(rt.alloc(), Box::new(rt.alloc(), Raised)?)?;
    assert!(rt; list.is_set(7));
    assert!(rt; decodes_to(&list, rt.alloc(), 7, &[1, 0], &[0, 255])?);
    let listed = list.get(rt.alloc(), 7)?;
    assert!(rt; is_read_again(listed, rt.alloc(), &[9])?);
    Ok(())
}

fn set_raised(list: &mut CompressorList, alloc: Global, id: u8) -> Result<()> {
    list.set_with_id(alloc, id, Box::new(alloc, Raised)?)
}

// A list with `Raised` under two ids. Under one of them it replaces another compressor.
fn list_of_two(alloc: Global) -> Result<CompressorList> {
    let mut list = CompressorList::default();
    list.set_with_id(alloc, 9, Box::new(alloc, NoneCompressor)?)?;
    set_raised(&mut list, alloc, 0)?;
    set_raised(&mut list, alloc, 9)?;
    Ok(list)
}

#[test]
fn compressors_replaced(rt: HostRuntime) -> Result<()> {
    let mut list = list_of_two(rt.alloc())?;
    assert!(rt; decodes_to(&list, rt.alloc(), 0, &[1], &[0])?);
    assert!(rt; decodes_to(&list, rt.alloc(), 9, &[1], &[0])?);
    list.set::<NoneCompressor>(rt.alloc(), Box::new(rt.alloc(), NoneCompressor)?)?;
    assert!(rt; decodes_to(&list, rt.alloc(), 0, &[1], &[1])?);
    Ok(())
}

// Ids that no compressor has, and the text of the error.
const UNSET: [(u8, &str); 2] = [
    (7, "invalid compression id `7`"),
    (255, "invalid compression id `255`"),
];

// Whether a call failed since an id is unset, with this text. That there is none means that there
// was no memory for it.
fn is_unset(answer: Result<Vec<u8>>, text: &str) -> Result<bool> {
    match answer {
        Ok(_) => Ok(false),
        Err(
            Status {
                code,
                err: Some(found),
            },
        ) => Ok(code == StatusCode::NotSupported && found.as_str() == text),
        Err(status) => Err(status),
    }
}

#[test]
fn unset_ids(rt: HostRuntime) -> Result<()> {
    let list = CompressorList::default();
    for (id, text) in &UNSET {
        let answer = decode(&list, rt.alloc(), *id, b"abc");
        assert!(rt; is_unset(answer, text)?, "{id}");
    }
    Ok(())
}

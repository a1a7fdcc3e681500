//! A map of a thousand keys beside a sorted vector of them, which come in rising, falling and mixed
//! order.
use leveldb_base::cmp::DefaultCmp;
use leveldb_base::error::Result;
use leveldb_base::types::LdbIterator;
use leveldb_mem::skipmap::{SkipMap, SkipMapIter};
use std::alloc::Global;

const COUNT: u32 = 1000;

/// The first number and the step to the next, modulo the count: rising, falling and mixed.
const ORDERS: [(u32, u32); 3] = [(0, 1), (999, 999), (500, 387)];

// Inserts a number's key into the map, and the number into the vector before the first greater one.
fn put(map: &mut SkipMap<DefaultCmp>, sorted: &mut Vec<u32>, number: u32) -> Result<()> {
    map.insert(&number.to_be_bytes(), b"value")?;
    let at = sorted.iter().position(|x| *x > number);
    sorted.insert(at.unwrap_or(sorted.len()), number)?;
    Ok(())
}

// The map and the sorted vector of an order's keys.
fn both_of(alloc: Global, order: (u32, u32)) -> Result<(SkipMap<DefaultCmp>, Vec<u32>)> {
    let mut map = SkipMap::new(alloc, DefaultCmp);
    let mut sorted = Vec::new(alloc);
    let (mut number, step) = order;
    for _ in 0..COUNT {
        put(&mut map, &mut sorted, number % COUNT)?;
        number = number.wrapping_add(step);
    }
    Ok((map, sorted))
}

// Whether an iterator is at a number's key.
fn is_at(it: &SkipMapIter<'_, DefaultCmp>, number: u32) -> bool {
    it.current() == Some((number.to_be_bytes().as_slice(), b"value".as_slice()))
}

// Whether a walk from the first key on passes these numbers, and no more.
fn walks_forward(map: &SkipMap<DefaultCmp>, sorted: &[u32]) -> Result<bool> {
    let mut it = map.iter();
    for number in sorted {
        if !it.advance()? || !is_at(&it, *number) {
            return Ok(false);
        }
    }
    Ok(!it.advance()?)
}

// Whether a walk from the last key back does.
fn walks_back(map: &SkipMap<DefaultCmp>, sorted: &[u32]) -> Result<bool> {
    let mut it = map.iter();
    it.seek_to_last()?;
    for number in sorted.iter().rev() {
        if !is_at(&it, *number) {
            return Ok(false);
        }
        it.prev()?;
    }
    Ok(!it.valid())
}

// Whether the map of an order has as many keys as the vector, and walks as it both ways.
fn is_alike(alloc: Global, order: (u32, u32)) -> Result<bool> {
    let (map, sorted) = both_of(alloc, order)?;
    Ok(map.len() == sorted.len() && walks_forward(&map, &sorted)? && walks_back(&map, &sorted)?)
}

#[test]
fn walks_both_ways(rt: HostRuntime) -> Result<()> {
    for order in &ORDERS {
        assert!(rt; is_alike(rt.alloc(), *order)?);
    }
    Ok(())
}

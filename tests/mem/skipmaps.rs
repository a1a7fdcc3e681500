//! The keys aba to abz, put out of order: what is there, walks with a turn at each position, seeks,
//! and failed insertions.
use leveldb_base::cmp::{Cmp, DefaultCmp};
use leveldb_base::error::{Result, StatusCode};
use leveldb_base::key_types::{ValueType, build_memtable_key};
use leveldb_base::types::LdbIterator;
use leveldb_mem::skipmap::{SkipMap, SkipMapIter};
use std::alloc::Global;
use std::process::Abort;
use support::failed_with;

// Seven has no divisor in common with 26, so that each letter comes once.
fn letters(alloc: Global) -> Result<SkipMap<DefaultCmp>> {
    let mut map = SkipMap::new(alloc, DefaultCmp);
    for i in 0..26u8 {
        map.insert(&[b'a', b'b', b'a' + 7 * i % 26], b"def")?;
    }
    Ok(map)
}

// The last letter of the key at which an iterator is.
fn letter<C: Cmp>(it: &SkipMapIter<'_, C>) -> Option<u8> {
    it.current()?.0.last().copied()
}

/// Whether a key of the map begins with these bytes.
const PREFIXES: [(&str, bool); 8] = [
    ("", true),
    ("ab", true),
    ("aba", true),
    ("abz", true),
    ("ab{", false),
    ("abaa", false),
    ("ac", false),
    ("b", false),
];

#[test]
fn empty(rt: HostRuntime) {
    let none = SkipMap::new(rt.alloc(), DefaultCmp);
    assert!(rt; (none.len(), none.is_empty(), none.approx_memory()) == (0, true, 128));
    assert!(rt; !none.contains(b""));
}

#[test]
fn counts_and_finds(rt: HostRuntime) -> Result<()> {
    let map = letters(rt.alloc())?;
    assert!(rt; (map.len(), map.is_empty(), map.approx_memory()) == (26, false, 1948));
    for (prefix, is_there) in &PREFIXES {
        assert!(rt; map.contains(prefix.as_bytes()) == *is_there, "{prefix}");
    }
    Ok(())
}

/// Whether a present key and an empty one aren't inserted.
fn neither_is_inserted(map: &mut SkipMap<DefaultCmp>) -> Result<bool> {
    let is_present = failed_with(map.insert(b"abc", b"other"), StatusCode::AlreadyExists)?;
    let is_empty = failed_with(map.insert(b"", b"def"), StatusCode::InvalidArgument)?;
    Ok(is_present && is_empty)
}

/// Whether the first pair at or after this key is of it, with this value.
fn has_value(map: &SkipMap<DefaultCmp>, key: &[u8], value: &[u8]) -> Result<bool> {
    let mut it = map.iter();
    it.seek(key)?;
    Ok(it.current() == Some((key, value)))
}

#[test]
fn present_and_empty_keys_are_not_inserted(rt: HostRuntime) -> Result<()> {
    let mut map = letters(rt.alloc())?;
    assert!(rt; neither_is_inserted(&mut map)?);
    assert!(rt; (map.len(), map.approx_memory()) == (26, 1948));
    assert!(rt; has_value(&map, b"abc", b"def")?);
    Ok(())
}

// Moves to the key that is `count` keys after the first.
fn go_to<C: Cmp>(it: &mut SkipMapIter<'_, C>, count: u8) -> Result<()> {
    it.seek_to_first()?;
    for _ in 0..count {
        it.advance()?;
    }
    Ok(())
}

/// The letters at a key, a step before it and a step after that, and what the two steps returned.
fn turn_at<C: Cmp>(it: &mut SkipMapIter<'_, C>, count: u8) -> Result<([Option<u8>; 3], [bool; 2])> {
    go_to(it, count)?;
    let here = letter(it);
    let is_before = it.prev()?;
    let before = letter(it);
    let is_after = it.advance()?;
    Ok(([here, before, letter(it)], [is_before, is_after]))
}

/// The letters of a turn at each of 26 positions. A walk past the last key begins again.
fn turns(map: &SkipMap<DefaultCmp>) -> Result<[[Option<u8>; 3]; 26]> {
    let mut it = map.iter();
    let mut letters = [[None; 3]; 26];
    for n in 0..26u8 {
        letters[n as usize] = turn_at(&mut it, n)?.0;
    }
    Ok(letters)
}

/// How many keys a map has, how many bytes it counts as, and its turns.
type State = (usize, usize, [[Option<u8>; 3]; 26]);

fn state_of(map: &SkipMap<DefaultCmp>) -> Result<State> {
    Ok((map.len(), map.approx_memory(), turns(map)?))
}

/// Inserts a key that isn't there into a map that is as it was.
fn insert_again(
    rt: &impl Abort,
    map: &mut SkipMap<DefaultCmp>,
    key: &[u8; 3],
    before: &State,
) -> Result<()> {
    assert!(rt; state_of(map)? == *before && !map.contains(key));
    map.insert(key, b"def")?;
    assert!(rt; map.contains(key));
    Ok(())
}

/// A failed insertion leaves the map as it was, and can be made again.
fn insert_twice(rt: &impl Abort, map: &mut SkipMap<DefaultCmp>, key: &[u8; 3]) -> Result<()> {
    let before = state_of(map)?;
    let first = map.insert(key, b"def");
    if first.is_err() {
        insert_again(rt, map, key, &before)?;
    }
    first
}

#[test]
fn inserts_again_after_a_failure(rt: HostRuntime) -> Result<()> {
    let mut map = SkipMap::new(rt.alloc(), DefaultCmp);
    for i in 0..26u8 {
        insert_twice(&rt, &mut map, &[b'a', b'b', b'a' + 7 * i % 26])?;
    }
    Ok(())
}

#[test]
fn turns_at_every_position(rt: HostRuntime) -> Result<()> {
    let map = letters(rt.alloc())?;
    let mut it = map.iter();
    for n in 0..26u8 {
        let here = Some(b'a' + n);
        let before = if n > 0 { Some(b'a' + n - 1) } else { None };
        assert!(rt;
            turn_at(&mut it, n)? == ([here, before, here], [n > 0, true]),
            "at {n}"
        );
    }
    Ok(())
}

/// What a step returns, whether there is a position then, and the letter there.
fn step<C: Cmp>(it: &mut SkipMapIter<'_, C>) -> Result<(bool, bool, Option<u8>)> {
    let is_there = it.advance()?;
    Ok((is_there, it.valid(), letter(it)))
}

/// What a step from the last key on gives, and one more.
fn steps_past_the_last(map: &SkipMap<DefaultCmp>) -> Result<[(bool, bool, Option<u8>); 2]> {
    let mut it = map.iter();
    it.seek(b"abz")?;
    let past = step(&mut it)?;
    Ok([past, step(&mut it)?])
}

/// There is no position after the last key. From there a step goes to the first.
#[test]
fn no_position_after_the_last(rt: HostRuntime) -> Result<()> {
    let map = letters(rt.alloc())?;
    let wanted = [(false, false, None), (true, true, Some(b'a'))];
    assert!(rt; steps_past_the_last(&map)? == wanted);
    Ok(())
}

/// Whether a new iterator has no position, and a step back leaves it there.
fn has_none_before(map: &SkipMap<DefaultCmp>) -> Result<bool> {
    let mut it = map.iter();
    Ok(!it.valid() && !it.prev()?)
}

/// Whether an iterator that had a position has none once it is reset.
fn has_none_after_reset(map: &SkipMap<DefaultCmp>) -> Result<bool> {
    let mut it = map.iter();
    let is_there = it.advance()?;
    it.reset();
    Ok(is_there && it.current().is_none())
}

#[test]
fn no_position_before_the_first(rt: HostRuntime) -> Result<()> {
    let map = letters(rt.alloc())?;
    assert!(rt; has_none_before(&map)? && has_none_after_reset(&map)?);
    Ok(())
}

/// Keys, and the letter of the first key at or after each.
const SEEKS: [(&str, Option<u8>); 9] = [
    ("", Some(b'a')),
    ("aa", Some(b'a')),
    ("aba", Some(b'a')),
    ("aba\0", Some(b'b')),
    ("abm", Some(b'm')),
    ("abm~", Some(b'n')),
    ("abz", Some(b'z')),
    ("abz\0", None),
    ("b", None),
];

#[test]
fn seeks_at_and_between_keys(rt: HostRuntime) -> Result<()> {
    let map = letters(rt.alloc())?;
    let mut it = map.iter();
    for (key, wanted) in &SEEKS {
        it.seek(key.as_bytes())?;
        assert!(rt; letter(&it) == *wanted, "at {key}");
    }
    Ok(())
}

// Malformed keys aren't accepted, and are looked for all the same.
#[test]
fn memtable_keys(rt: HostRuntime) -> Result<()> {
    let map = SkipMap::new_memtable_map(rt.alloc(), DefaultCmp);
    let key = build_memtable_key(rt.alloc(), b"abc", b"123", ValueType::TypeValue, 231)?;
    assert!(rt; !map.contains(key.as_slice()));
    assert!(rt; !map.contains(b"\x07short"));
    let mut it = map.iter();
    it.seek_to_last()?;
    assert!(rt; !it.valid());
    Ok(())
}

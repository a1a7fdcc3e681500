//! Merges of lists beside the sorted list of their pairs.
use super::children::{Device, Source, list_of, list_of_keys};
use leveldb_base::cmp::DefaultCmp;
use leveldb_base::error::{Result, StatusCode, err};
use leveldb_iter::in_memory::InMemory;
use leveldb_iter::merging_iter::{MergeCore, MergingIter};
use leveldb_iter::walk::Walk;
use leveldb_iter::walk_iter::WalkIter;
use std::alloc::Global;

type Merged = MergeCore<DefaultCmp, Source<DefaultCmp>>;

// Lists of keys, each of a letter, and all keys in order.
const ROWS: [([&str; 3], &str); 8] = [
    (["", "", ""], ""),
    (["", "b", ""], "b"),
    (["abc", "", ""], "abc"),
    (["a", "b", "c"], "abc"),
    (["c", "b", "a"], "abc"),
    (["ad", "be", "cf"], "abcdef"),
    (["ef", "abc", "d"], "abcdef"),
    (["bde", "ag", "cf"], "abcdefg"),
];

fn merge(alloc: Global, lists: &[&'static str; 3]) -> Result<Merged> {
    let mut children = Vec::new(alloc);
    for keys in lists {
        children.push(Source {
            list: list_of(alloc, keys)?,
        })?;
    }
    Ok(MergeCore::new::<Device, ()>(DefaultCmp, children))
}

// The moves, each a letter: advance, prev, the first pair, the last, the first at or after "d", and
// reset.
pub const MOVES: [u8; 6] = *b"apflsr";

// Makes the move of a letter.
pub fn go<W: Walk<Device, ()>>(it: &mut W, device: &mut Device, letter: u8) -> Result<()> {
    match letter {
        b'a' => drop(it.advance(device, &mut ())?),
        b'p' => drop(it.prev(device, &mut ())?),
        b'f' => it.seek_to_first(device, &mut ())?,
        b'l' => it.seek_to_last(device, &mut ())?,
        b's' => it.seek(device, &mut (), b"d")?,
        _ => it.reset(),
    }
    Ok(())
}

// Where the same move leads in a list of keys.
pub fn gone(keys: &[u8], at: Option<usize>, letter: u8) -> Option<usize> {
    let there = match letter {
        b'a' => match at {
            None => Some(0),
            Some(i) => i.checked_add(1),
        },
        b'p' => at?.checked_sub(1),
        b'f' => Some(0),
        b'l' => keys.len().checked_sub(1),
        b's' => Some(keys.iter().filter(|key| **key < b'd').count()),
        _ => None,
    };
    there.filter(|i| *i < keys.len())
}

// Whether the walk is at a pair of this key and this value, each of one byte.
pub fn is_at<W: Walk<Device, ()>>(it: &W, pair: Option<(u8, u8)>) -> bool {
    let valid = it.valid();
    match (it.current(), pair) {
        (None, None) => !valid,
        (Some((found, own)), Some((key, value))) => valid
            && found == [key].as_slice()
            && own == [value].as_slice(),
        _ => false,
    }
}

// The pair of a key at an index, which has itself as its value.
fn pair_at(keys: &[u8], at: Option<usize>) -> Option<(u8, u8)> {
    let key = keys.get(at?).copied()?;
    Some((key, key))
}

// Whether all moves of a number in base 6 lead where they lead in the sorted list.
fn leads_right(it: &mut Merged, keys: &[u8], moves: u32) -> Result<bool> {
    let mut device = Device {
        calls_left: u64::MAX,
    };
    let mut rest = moves;
    let mut at = None;
    Walk::<Device, ()>::reset(it);
    for _ in 0..5 {
        let letter = MOVES[(rest % 6) as usize];
        rest /= 6;
        go(it, &mut device, letter)?;
        at = gone(keys, at, letter);
        if !is_at(it, pair_at(keys, at)) {
            return Ok(false);
        }
    }
    Ok(true)
}

#[test]
fn all_moves_in_all_orders(rt: HostRuntime) -> Result<()> {
    for (lists, keys) in &ROWS {
        let mut it = merge(rt.alloc(), lists)?;
        for moves in 0..7776 {
            assert!(rt;
                leads_right(&mut it, keys.as_bytes(), moves)?,
                "{keys}: {moves}"
            );
        }
    }
    Ok(())
}

// The moves that are made with a device that fails, in a merge of "ad", "be" and "cf".
const WALK: &[u8] = b"aaapaplpppaasafl";

// Whether each move leads where it leads in the sorted list, or fails and leaves no position.
fn goes_on(it: &mut Merged, device: &mut Device, keys: &[u8]) -> bool {
    let mut at = None;
    for letter in WALK {
        at = match go(it, device, *letter) {
            Ok(()) => gone(keys, at, *letter),
            Err(status) => {
                if status.code != StatusCode::IOError {
                    return false;
                }
                None
            }
        };
        if !is_at(it, pair_at(keys, at)) {
            return false;
        }
    }
    true
}

#[test]
fn a_failed_move_leaves_no_position_and_the_walk_goes_on(rt: HostRuntime) -> Result<()> {
    for calls_left in 0..60 {
        let mut it = merge(rt.alloc(), &["ad", "be", "cf"])?;
        let mut device = Device { calls_left };
        assert!(rt; goes_on(&mut it, &mut device, b"abcdef"), "{calls_left}");
    }
    Ok(())
}

// The letters of the pairs from the next one on.
fn letters_left<W: Walk<Device, ()>>(
    alloc: Global,
    it: &mut W,
    device: &mut Device,
) -> Result<Vec<u8>> {
    let mut letters = Vec::new(alloc);
    for _ in 0..100 {
        if !it.advance(device, &mut ())? {
            break;
        }
        let Some((key, value)) = it.current() else {
            break;
        };
        if key != value {
            break;
        }
        letters.extend_from_slice(key)?;
    }
    Ok(letters)
}

#[test]
fn moves_of_a_merge(rt: HostRuntime) -> Result<()> {
    let mut device = Device {
        calls_left: u64::MAX,
    };
    let mut it = merge(rt.alloc(), &["bde", "ag", "cf"])?;
    let letters = letters_left(rt.alloc(), &mut it, &mut device)?;
    assert!(rt; letters.as_slice() == b"abcdefg".as_slice());
    it.seek(&mut device, &mut (), b"d")?;
    assert!(rt; it.prev(&mut device, &mut ())? && is_at(&it, Some((b'c', b'c'))));
    let letters = letters_left(rt.alloc(), &mut it, &mut device)?;
    assert!(rt; letters.as_slice() == b"defg".as_slice());
    it.seek_to_last(&mut device, &mut ())?;
    assert!(rt; !it.advance(&mut device, &mut ())? && is_at(&it, None));
    it.seek_to_first(&mut device, &mut ())?;
    Walk::<Device, ()>::reset(&mut it);
    assert!(rt; it.advance(&mut device, &mut ())? && is_at(&it, Some((b'a', b'a'))));
    Ok(())
}

#[test]
fn a_merge_beside_its_borrows(rt: HostRuntime) -> Result<()> {
    let mut device = Device {
        calls_left: u64::MAX,
    };
    let mut tables = ();
    let core = merge(rt.alloc(), &["bde", "ag", "cf"])?;
    let mut it: MergingIter<Device, (), DefaultCmp, Source<DefaultCmp>> = WalkIter::new(
        core,
        &mut device,
        &mut tables,
    );
    it.seek(b"d")?;
    assert!(rt; it.prev()? && it.valid() && it.current() == Some((b"c", b"c")));
    let Some((key, value)) = it.next(rt.alloc())? else {
        return err(rt.alloc(), StatusCode::NotFound, "d");
    };
    assert!(rt; key.as_slice() == b"d".as_slice() && value.as_slice() == b"d".as_slice());
    it.seek_to_last()?;
    assert!(rt; !it.advance()? && !it.valid() && it.next(rt.alloc())?.is_some());
    it.seek_to_first()?;
    it.reset();
    assert!(rt; it.advance()? && it.current() == Some((b"a", b"a")));
    Ok(())
}

#[test]
fn iterators_as_walks(rt: HostRuntime) -> Result<()> {
    let mut device = Device { calls_left: 0 };
    let mut children = Vec::new(rt.alloc());
    for keys in ["ac", "bd"] {
        children.push(InMemory(list_of(rt.alloc(), keys)?))?;
    }
    let mut it = MergeCore::new::<Device, ()>(DefaultCmp, children);
    let letters = letters_left(rt.alloc(), &mut it, &mut device)?;
    assert!(rt; letters.as_slice() == b"abcd".as_slice());
    it.seek_to_last(&mut device, &mut ())?;
    assert!(rt; it.prev(&mut device, &mut ())? && is_at(&it, Some((b'c', b'c'))));
    Ok(())
}

// Whether the walk is at a pair of this key, and the value "def".
fn is_at_def<W: Walk<Device, ()>>(it: &W, wanted: &[u8]) -> bool {
    match it.current() {
        None => false,
        Some((key, value)) => key == wanted && value == b"def".as_slice(),
    }
}

#[test]
fn keys_that_share_a_prefix(rt: HostRuntime) -> Result<()> {
    let alloc = rt.alloc();
    let mut device = Device { calls_left: 0 };
    let mut children = Vec::new(alloc);
    children.push(InMemory(list_of_keys(alloc, &[b"aba", b"abc", b"abe"])?))?;
    children.push(InMemory(list_of_keys(alloc, &[b"abb", b"abd"])?))?;
    let mut it = MergeCore::new::<Device, ()>(DefaultCmp, children);
    it.seek(&mut device, &mut (), b"ab0")?;
    assert!(rt; is_at_def(&it, b"aba"));
    it.seek(&mut device, &mut (), b"abx")?;
    assert!(rt; is_at(&it, None));
    Walk::<Device, ()>::reset(&mut it);
    assert!(rt; it.advance(&mut device, &mut ())? && is_at_def(&it, b"aba"));
    Ok(())
}

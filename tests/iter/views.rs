//! Views of lists of entries beside a slow search for each key.
use super::children::{Device, Source, list_of_damaged, list_of_entries};
use super::merges::{MOVES, go, gone, is_at};
use leveldb_base::cmp::{DefaultCmp, InternalKeyCmp};
use leveldb_base::error::{Result, StatusCode};
use leveldb_base::key_types::ValueType;
use leveldb_iter::db_iter::ViewWalk;
use leveldb_iter::walk::Walk;
use std::alloc::Global;

type View = ViewWalk<Source<InternalKeyCmp<DefaultCmp>>>;

// Lists of entries in order, each a letter, a digit for its sequence number, and '+' or '-'.
const ROWS: [&str; 8] = [
    "",
    "d5+",
    "d5-",
    "a9+a5-a3+b4-b2+c7+c6+",
    "a3-b5+b4+b1-d9+d8-d2+e7-",
    "c5-c4+d6+d5+d4+d3-e4-f2+",
    "a2+b9+c2-d9+e2+f9-f8+f1+",
    "a4+b4+c4+d4+e4+f4+",
];

fn entries_of(alloc: Global, row: &[u8]) -> Result<Vec<(u8, u8, ValueType)>> {
    let mut entries = Vec::new(alloc);
    for part in row.chunks_exact(3) {
        let kind = if part[2] == b'+' {
            ValueType::TypeValue
        } else {
            ValueType::TypeDeletion
        };
        entries.push((part[0], part[1] & 15, kind))?;
    }
    Ok(entries)
}

// The value of a key at a sequence number, as a search of all entries finds it.
fn value_of(entries: &[(u8, u8, ValueType)], key: u8, sequence: u8) -> Option<u8> {
    let mut newest = 0;
    let mut value = None;
    for (letter, digit, kind) in entries {
        if *letter == key && *digit <= sequence && newest < *digit {
            newest = *digit;
            value = match kind {
                ValueType::TypeDeletion => None,
                ValueType::TypeValue => Some(*digit),
            };
        }
    }
    value
}

// The pairs of the view, in order.
#[derive(Drop)]
struct Pairs {
    keys: Vec<u8>,
    values: Vec<u8>,
}

fn slow_view(alloc: Global, entries: &[(u8, u8, ValueType)], sequence: u8) -> Result<Pairs> {
    let mut keys = Vec::new(alloc);
    let mut values = Vec::new(alloc);
    for key in b'a'..=b'g' {
        if let Some(value) = value_of(entries, key, sequence) {
            keys.push(key)?;
            values.push(value)?;
        }
    }
    Ok(Pairs { keys, values })
}

impl Pairs {
    fn at(&self, at: Option<usize>) -> Option<(u8, u8)> {
        let i = at?;
        Some((self.keys.get(i).copied()?, self.values.get(i).copied()?))
    }
}

fn view(alloc: Global, entries: &[(u8, u8, ValueType)], sequence: u8) -> Result<View> {
    let list = list_of_entries(alloc, entries)?;
    Ok(ViewWalk::new::<Device, ()>(alloc, Source { list }, u64::from(sequence)))
}

// Whether all moves of a number in base 6 lead where they lead in the list of these pairs.
fn leads_right(it: &mut View, pairs: &Pairs, moves: u32) -> Result<bool> {
    let mut device = Device {
        calls_left: u64::MAX,
    };
    let mut rest = moves;
    let mut at = None;
    Walk::<Device, ()>::reset(it);
    for _ in 0..5 {
        let letter = MOVES[(rest % 6) as usize];
        rest /= 6;
        go(it, &mut device, letter)?;
        at = gone(pairs.keys.as_slice(), at, letter);
        if !is_at(it, pairs.at(at)) {
            return Ok(false);
        }
    }
    Ok(true)
}

#[test]
fn all_moves_in_all_orders(rt: HostRuntime) -> Result<()> {
    for row in &ROWS {
        let entries = entries_of(rt.alloc(), row.as_bytes())?;
        for sequence in [3, 5, 9] {
            let pairs = slow_view(rt.alloc(), entries.as_slice(), sequence)?;
            let mut it = view(rt.alloc(), entries.as_slice(), sequence)?;
            for moves in 0..7776 {
                assert!(rt;
                    leads_right(&mut it, &pairs, moves)?,
                    "{row} {sequence}: {moves}"
                );
            }
        }
    }
    Ok(())
}

// The moves that are made with a device that fails.
const WALK: &[u8] = b"aaapaplpppaasaflpspa";

// Whether each move leads where it leads in the list, or fails and leaves no position. Err: a move found no memory.
fn goes_on(it: &mut View, device: &mut Device, pairs: &Pairs) -> Result<bool> {
    let mut at = None;
    for letter in WALK {
        at = match go(it, device, *letter) {
            Ok(()) => gone(pairs.keys.as_slice(), at, *letter),
            Err(status) => {
                if status.code != StatusCode::IOError {
                    return Err(status);
                }
                None
            }
        };
        if !is_at(it, pairs.at(at)) {
            return Ok(false);
        }
    }
    Ok(true)
}

#[test]
fn a_failed_move_leaves_no_position_and_the_view_goes_on(rt: HostRuntime) -> Result<()> {
    let entries = entries_of(rt.alloc(), ROWS[5].as_bytes())?;
    let pairs = slow_view(rt.alloc(), entries.as_slice(), 5)?;
    for calls_left in 0..80 {
        let mut it = view(rt.alloc(), entries.as_slice(), 5)?;
        let mut device = Device { calls_left };
        assert!(rt; goes_on(&mut it, &mut device, &pairs)?, "{calls_left}");
    }
    Ok(())
}

// Entries before and after a pair whose key has no tag, moves, and the key to which each leads; '!'
// is for a move that comes to that pair.
const DAMAGED: [(&str, &str, &str, &str); 3] = [
    ("a4+b4+", "d4+e4+", "aaaaspllpafa", "ab!ad!ee!aab"),
    ("", "d4+e4+", "afsaplps", "!!de!e!d"),
    ("a4+b4-", "", "laafal", "!a!a!!"),
];

// Whether a move leads to the pair of this key, or fails there and leaves no position. Err: it found no memory.
fn leads_to(it: &mut View, letter: u8, key: u8) -> Result<bool> {
    let mut device = Device {
        calls_left: u64::MAX,
    };
    match go(it, &mut device, letter) {
        Ok(()) => Ok(is_at(it, Some((key, 4)))),
        Err(status) => {
            if status.code != StatusCode::Corruption {
                return Err(status);
            }
            Ok(key == b'!' && is_at(it, None))
        }
    }
}

#[test]
fn a_key_without_a_tag_is_corrupt_and_the_view_goes_on(rt: HostRuntime) -> Result<()> {
    for (front, back, letters, keys) in &DAMAGED {
        let front = entries_of(rt.alloc(), front.as_bytes())?;
        let back = entries_of(rt.alloc(), back.as_bytes())?;
        let list = list_of_damaged(rt.alloc(), front.as_slice(), back.as_slice())?;
        let mut it = ViewWalk::new::<Device, ()>(rt.alloc(), Source { list }, 9);
        for (letter, key) in letters.as_bytes().iter().zip(keys.as_bytes()) {
            assert!(rt; leads_to(&mut it, *letter, *key)?, "{letters}: {letter}");
        }
    }
    Ok(())
}

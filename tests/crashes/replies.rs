//! What the tests of crashes share: the keys, and the map that a store's replies show.
use leveldb_base::error::{Result, Status};
use rusty_leveldb::shell::{Command, Reply, Step};
use slow_history::BorrowedPair;
use std::alloc::Global;

/// All keys that are ever written, in order. Most scripts write the first six alone.
pub const KEYS: [&str; 13] = [
    "", "a", "b", "c", "d", "e", "f", "g", "h", "i", "j", "k", "l",
];

/// Why a reply is a refusal, or a move of it was refused.
pub fn refusal(reply: &Reply) -> Option<&Status> {
    match reply {
        Reply::Refused(status) => Some(status),
        Reply::Walk(steps) => {
            for led in steps {
                if let Step::Refused(status) = led {
                    return Some(status);
                }
            }
            None
        }
        _ => None,
    }
}

pub fn bytes_of(alloc: Global, text: &str) -> Result<Vec<u8>> {
    Ok(Vec::from_slice(alloc, text.as_bytes())?)
}

/// A look-up of each of the first keys, so many of them.
pub fn look_ups(alloc: Global, count: usize) -> Result<Vec<Command>> {
    let mut commands = Vec::new(alloc);
    for key in KEYS.iter().take(count) {
        commands.push(Command::Get(bytes_of(alloc, key)?))?;
    }
    Ok(commands)
}

/// Whether the reply to a look-up of this key is that of this map.
pub fn has(map: &[BorrowedPair<'_>], key: &str, reply: &Reply) -> bool {
    for pair in map {
        if pair.0 == key.as_bytes() {
            return matches!(reply, Reply::Value(value) if pair.1 == value.as_slice());
        }
    }
    matches!(reply, Reply::Nothing)
}

/// Whether each key of a map is among the first ones, so many of them.
fn is_within(map: &[BorrowedPair<'_>], count: usize) -> bool {
    let last = KEYS.iter().take(count).last();
    map.iter()
        .all(|pair| last.is_some_and(|last| pair.0 <= last.as_bytes()))
}

/// Whether the replies to all look-ups are those of this map.
pub fn is_map(map: &[BorrowedPair<'_>], replies: &[Reply]) -> bool {
    for (key, reply) in KEYS.iter().zip(replies) {
        if !has(map, key, reply) {
            return false;
        }
    }
    is_within(map, replies.len())
}

/// Whether the replies to all look-ups are those of one of these maps.
pub fn is_any_map(maps: &[Vec<BorrowedPair<'_>>], replies: &[Reply]) -> bool {
    for map in maps {
        if is_map(map, replies) {
            return true;
        }
    }
    false
}

fn is_same(before: &Reply, after: &Reply) -> bool {
    match (before, after) {
        (Reply::Value(before), Reply::Value(after)) => before == after,
        (Reply::Nothing, Reply::Nothing) => true,
        _ => false,
    }
}

/// Whether all replies to look-ups are the same.
pub fn are_same(before: &[Reply], after: &[Reply]) -> bool {
    for (before, after) in before.iter().zip(after) {
        if !is_same(before, after) {
            return false;
        }
    }
    before.len() == after.len()
}

//! Thousands of commands that look random, on a store in memory: half of them puts of long values, the others of every kind but a close. Each
//! reply is that of a map which each write changes, and each snapshot keeps a copy of it; now and then the map is compared with the view of
//! all entries.
use leveldb_base::cmp::DefaultCmp;
use leveldb_base::error::{Result, StatusCode};
use leveldb_env::mem_env::MemEnv;
use leveldb_env::options::Options;
use rand_core::{Rng, SeedableRng};
use rand_xoshiro::Xoshiro256PlusPlus;
use rusty_leveldb::shell::{Command, Item, Move, Reply, Step, run};
use slow_history::{Entry, view_of};
use std::alloc::Global;
use std::process::Abort;

/// How many keys there are, bytes of a long value and moves of a walk, and after how many commands the map is compared.
const KEYS: usize = 4000;

const LONG: usize = 8192;

const MOVES: u64 = 8;

const COMPARED: usize = 500;

/// A value that is written: the number of its command, in eight bytes that are repeated up to this length.
#[derive(Clone, Copy, Debug, PartialEq)]
struct Stamp {
    number: u64,
    length: usize,
}

/// The key of this number: they are in the order of their numbers.
fn key_of(alloc: Global, number: usize) -> Result<Vec<u8>> {
    let digits = [
        number / 1000 % 10,
        number / 100 % 10,
        number / 10 % 10,
        number % 10,
    ];
    let mut key = Vec::from_slice(alloc, b"key")?;
    for digit in digits {
        key.push(b'0' + digit as u8)?;
    }
    Ok(key)
}

/// The bytes of a value.
fn bytes_of(alloc: Global, stamp: Stamp) -> Result<Vec<u8>> {
    let word = stamp.number.to_le_bytes();
    let mut bytes = Vec::new(alloc);
    while bytes.len() + 8 <= stamp.length {
        bytes.extend_from_slice(&word)?;
    }
    Ok(bytes)
}

/// Whether these are the bytes of a value.
fn is_value(bytes: &[u8], stamp: Stamp) -> bool {
    let word = stamp.number.to_le_bytes();
    bytes.len() == stamp.length && bytes.chunks_exact(8).all(|part| part == word.as_slice())
}

/// A key's number, and its new value, or none to delete it.
type Change = (usize, Option<Stamp>);

/// A move of an iterator, by the number of a key.
#[derive(Clone, Copy, Debug)]
enum Turn {
    First,
    Next,
    Prev,
    Seek(usize),
}

/// What is asked, by the numbers of keys.
#[derive(Debug, Drop)]
enum Asked {
    Put(Change),
    Delete(Change),
    Write(bool, Vec<Change>),
    Get(usize),
    Snap,
    GetAt(usize, usize),
    Release(usize),
    Walk(Option<usize>, Vec<Turn>),
    Compact(usize, usize),
    Flush,
}

/// Draws commands.
#[derive(Drop)]
struct Draw {
    rng: Xoshiro256PlusPlus,
    /// How many snapshots were asked for.
    snapshots: usize,
}

impl Draw {
    /// A number below this one.
    fn below(&mut self, bound: u64) -> u64 {
        self.rng.next_u64() % bound
    }

    fn key(&mut self) -> usize {
        self.below(KEYS as u64) as usize
    }

    /// The number of a snapshot that was given, or of the next, which wasn't.
    fn snapshot(&mut self) -> usize {
        self.below(self.snapshots as u64 + 1) as usize
    }

    /// Of a snapshot, or of the store as it is.
    fn sight(&mut self) -> Option<usize> {
        if self.below(2) == 0 {
            Some(self.snapshot())
        } else {
            None
        }
    }

    fn change(&mut self, number: u64) -> Change {
        let key = self.key();
        let length = 8 * self.below(8) as usize;
        if self.below(3) == 0 {
            (key, None)
        } else {
            (key, Some(Stamp { number, length }))
        }
    }

    fn changes(&mut self, alloc: Global, number: u64) -> Result<Vec<Change>> {
        let mut changes = Vec::new(alloc);
        for _ in 0..self.below(5) {
            changes.push(self.change(number))?;
        }
        Ok(changes)
    }

    fn turn(&mut self) -> Turn {
        match self.below(6) {
            0 => Turn::First,
            1 | 2 => Turn::Next,
            3 | 4 => Turn::Prev,
            _ => Turn::Seek(self.key()),
        }
    }

    fn turns(&mut self, alloc: Global) -> Result<Vec<Turn>> {
        let mut turns = Vec::new(alloc);
        for _ in 0..self.below(MOVES + 1) {
            turns.push(self.turn())?;
        }
        Ok(turns)
    }

    fn snap(&mut self) -> Asked {
        self.snapshots += 1;
        Asked::Snap
    }

    /// A command other than those puts. A compaction is rare, since it goes over a good part of the store.
    fn other(&mut self, alloc: Global, number: u64) -> Result<Asked> {
        Ok(match self.below(64) {
            0..=9 => Asked::Delete((self.key(), None)),
            10..=19 => Asked::Write(self.below(2) == 0, self.changes(alloc, number)?),
            20..=33 => Asked::Get(self.key()),
            34..=36 => self.snap(),
            37..=44 => Asked::GetAt(self.snapshot(), self.key()),
            45..=47 => Asked::Release(self.snapshot()),
            48..=60 => Asked::Walk(self.sight(), self.turns(alloc)?),
            61 => Asked::Compact(self.key(), self.key()),
            _ => Asked::Flush,
        })
    }

    fn command(&mut self, alloc: Global, number: u64) -> Result<Asked> {
        if self.below(2) == 0 {
            let length = LONG;
            Ok(Asked::Put((self.key(), Some(Stamp { number, length }))))
        } else {
            self.other(alloc, number)
        }
    }
}

/// So many commands.
fn draw_all(alloc: Global, count: usize) -> Result<Vec<Asked>> {
    let mut draw = Draw {
        rng: Xoshiro256PlusPlus::seed_from_u64(1),
        snapshots: 0,
    };
    let mut asked = Vec::new(alloc);
    for number in 0..count {
        asked.push(draw.command(alloc, number as u64)?)?;
    }
    Ok(asked)
}

// ---- as commands

fn item_of(alloc: Global, change: &Change) -> Result<Item> {
    let key = key_of(alloc, change.0)?;
    Ok(match change.1 {
        Some(stamp) => Item::Put(key, bytes_of(alloc, stamp)?),
        None => Item::Delete(key),
    })
}

fn single(alloc: Global, change: &Change) -> Result<Command> {
    Ok(match item_of(alloc, change)? {
        Item::Put(key, value) => Command::Put(key, value),
        Item::Delete(key) => Command::Delete(key),
    })
}

fn write_of(alloc: Global, sync: bool, changes: &[Change]) -> Result<Command> {
    let mut items = Vec::new(alloc);
    for change in changes {
        items.push(item_of(alloc, change)?)?;
    }
    Ok(Command::Write { sync, items })
}

fn move_of(alloc: Global, turn: &Turn) -> Result<Move> {
    Ok(match turn {
        Turn::First => Move::First,
        Turn::Next => Move::Next,
        Turn::Prev => Move::Prev,
        Turn::Seek(key) => Move::Seek(key_of(alloc, *key)?),
    })
}

fn walk_of(alloc: Global, at: Option<usize>, turns: &[Turn]) -> Result<Command> {
    let mut moves = Vec::new(alloc);
    for turn in turns {
        moves.push(move_of(alloc, turn)?)?;
    }
    Ok(Command::Walk(at, moves))
}

fn command_of(alloc: Global, asked: &Asked) -> Result<Command> {
    Ok(match asked {
        Asked::Put(change) | Asked::Delete(change) => single(alloc, change)?,
        Asked::Write(sync, changes) => write_of(alloc, *sync, changes)?,
        Asked::Get(key) => Command::Get(key_of(alloc, *key)?),
        Asked::Snap => Command::Snap,
        Asked::GetAt(number, key) => Command::GetAt(*number, key_of(alloc, *key)?),
        Asked::Release(number) => Command::Release(*number),
        Asked::Walk(at, turns) => walk_of(alloc, *at, turns)?,
        Asked::Compact(from, to) => Command::Compact(key_of(alloc, *from)?, key_of(alloc, *to)?),
        Asked::Flush => Command::Flush,
    })
}

// ---- what is replied

/// The pairs of a store, in the order of their keys' numbers.
type Pairs = Vec<(usize, Stamp)>;

/// The place of a key, or where it would be.
fn place_of(pairs: &[(usize, Stamp)], key: usize) -> std::result::Result<usize, usize> {
    pairs.binary_search_by(|pair| pair.0.cmp(&key))
}

fn look_up(pairs: &[(usize, Stamp)], key: usize) -> Option<Stamp> {
    match place_of(pairs, key) {
        Ok(place) => Some(pairs[place].1),
        Err(_) => None,
    }
}

/// The one state that the store may be in: its map, those of the snapshots that were given, none where they were released, and all entries.
#[derive(Drop)]
struct Known {
    alloc: Global,
    pairs: Pairs,
    snapshots: Vec<Option<Pairs>>,
    entries: Vec<Entry>,
}

impl Known {
    fn change(&mut self, change: &Change) -> Result<()> {
        let (key, value) = *change;
        match (place_of(&self.pairs, key), value) {
            (Ok(place), Some(stamp)) => self.pairs[place].1 = stamp,
            (Ok(place), None) => drop(self.pairs.remove(place)),
            (Err(place), Some(stamp)) => self.pairs.insert(place, (key, stamp))?,
            (Err(_), None) => {}
        }
        let sequence = self.entries.len() as u64 + 1;
        let key = key_of(self.alloc, key)?;
        let value = match value {
            Some(stamp) => Some(Vec::from_slice(self.alloc, &stamp.number.to_le_bytes())?),
            None => None,
        };
        self.entries.push(Entry {
            sequence,
            key,
            value,
        })?;
        Ok(())
    }

    fn change_all(&mut self, changes: &[Change]) -> Result<()> {
        for change in changes {
            self.change(change)?;
        }
        Ok(())
    }

    /// The pairs that are seen, now or at a snapshot, if that is held.
    fn seen(&self, at: Option<usize>) -> Option<&[(usize, Stamp)]> {
        let Some(number) = at else {
            return Some(self.pairs.as_slice());
        };
        let pairs = self.snapshots.as_slice().get(number)?.as_ref()?;
        Some(pairs.as_slice())
    }

    /// Whether the map is the view of all entries.
    fn is_view(&self) -> Result<bool> {
        let mut entries = Vec::new(self.alloc);
        for entry in &self.entries {
            entries.push(entry)?;
        }
        let last = self.entries.len() as u64;
        let view = view_of(self.alloc, &DefaultCmp, entries.as_slice(), last)?;
        for (pair, (key, stamp)) in view.iter().zip(&self.pairs) {
            if pair.0 != key_of(self.alloc, *key)?.as_slice()
                || pair.1 != stamp.number.to_le_bytes().as_slice()
            {
                return Ok(false);
            }
        }
        Ok(view.len() == self.pairs.len())
    }
}

fn is_not_held(reply: &Reply) -> bool {
    matches!(reply, Reply::Refused(status) if status.code == StatusCode::InvalidArgument)
}

fn is_look_up(pairs: Option<&[(usize, Stamp)]>, key: usize, reply: &Reply) -> bool {
    let Some(pairs) = pairs else {
        return is_not_held(reply);
    };
    match (look_up(pairs, key), reply) {
        (Some(stamp), Reply::Value(value)) => is_value(value.as_slice(), stamp),
        (None, Reply::Nothing) => true,
        _ => false,
    }
}

/// Where a move leads.
fn moved(pairs: &[(usize, Stamp)], position: Option<usize>, turn: &Turn) -> Option<usize> {
    let next = match (turn, position) {
        (Turn::First, _) | (Turn::Next, None) => Some(0),
        (Turn::Next, Some(at)) => Some(at + 1),
        (Turn::Prev, None) => None,
        (Turn::Prev, Some(at)) => at.checked_sub(1),
        (Turn::Seek(key), _) => match place_of(pairs, *key) {
            Ok(place) | Err(place) => Some(place),
        },
    };
    next.filter(|at| *at < pairs.len())
}

fn is_landing(
    alloc: Global,
    pairs: &[(usize, Stamp)],
    at: Option<usize>,
    led: &Step,
) -> Result<bool> {
    Ok(match (at, led) {
        (Some(at), Step::At(key, value)) => {
            let (number, stamp) = pairs[at];
            key.as_slice() == key_of(alloc, number)?.as_slice() && is_value(value.as_slice(), stamp)
        }
        (None, Step::Invalid) => true,
        _ => false,
    })
}

fn is_walk(
    alloc: Global,
    pairs: Option<&[(usize, Stamp)]>,
    turns: &[Turn],
    reply: &Reply,
) -> Result<bool> {
    let Some(pairs) = pairs else {
        return Ok(is_not_held(reply));
    };
    let Reply::Walk(steps) = reply else {
        return Ok(false);
    };
    let mut position = None;
    for (turn, led) in turns.iter().zip(steps) {
        position = moved(pairs, position, turn);
        if !is_landing(alloc, pairs, position, led)? {
            return Ok(false);
        }
    }
    Ok(turns.len() == steps.len())
}

impl Known {
    fn gave(&mut self, reply: &Reply) -> Result<bool> {
        let number = self.snapshots.len();
        self.snapshots.push(Some(self.pairs.clone()?))?;
        Ok(matches!(reply, Reply::Snapshot(given) if *given == number))
    }

    fn released(&mut self, number: usize, reply: &Reply) -> bool {
        match self.snapshots.as_mut_slice().get_mut(number) {
            Some(held) if held.is_some() => {
                *held = None;
                matches!(reply, Reply::Done)
            }
            _ => is_not_held(reply),
        }
    }

    /// Whether this is what the store replies in this state, and the state after it.
    fn replied(&mut self, asked: &Asked, reply: &Reply) -> Result<bool> {
        let is_done = matches!(reply, Reply::Done);
        Ok(match asked {
            Asked::Put(change) | Asked::Delete(change) => {
                self.change(change)?;
                is_done
            }
            Asked::Write(_, changes) => {
                self.change_all(changes)?;
                is_done
            }
            Asked::Get(key) => is_look_up(self.seen(None), *key, reply),
            Asked::GetAt(number, key) => is_look_up(self.seen(Some(*number)), *key, reply),
            Asked::Walk(at, turns) => is_walk(self.alloc, self.seen(*at), turns, reply)?,
            Asked::Snap => self.gave(reply)?,
            Asked::Release(number) => self.released(*number, reply),
            Asked::Compact(_, _) | Asked::Flush => is_done,
        })
    }
}

/// Compares the replies with those of the one state.
fn judge(rt: &impl Abort, alloc: Global, asked: &[Asked], replies: &[Reply]) -> Result<()> {
    let mut known = Known {
        alloc,
        pairs: Vec::new(alloc),
        snapshots: Vec::new(alloc),
        entries: Vec::new(alloc),
    };
    for (at, (asked, reply)) in asked.iter().zip(replies).enumerate() {
        assert!(rt; known.replied(asked, reply)?, "command {at}, {asked:?}");
        if (at + 1) % COMPARED == 0 {
            assert!(rt; known.is_view()?, "after command {at}");
        }
    }
    assert!(rt; asked.len() == replies.len());
    Ok(())
}

/// Runs the first of them, so many, and judges what was replied.
pub fn run_first(rt: &impl Abort, alloc: Global, count: usize) -> Result<()> {
    let asked = draw_all(alloc, count)?;
    let mut commands = Vec::new(alloc);
    for one in &asked {
        commands.push(command_of(alloc, one)?)?;
    }
    let mut env = MemEnv::new(alloc);
    let mut options = Options::default();
    options.write_buffer_size = 65536;
    let mut replies = Vec::new(alloc);
    run(&mut env, "db", options, &commands, &mut replies)?;
    judge(rt, alloc, &asked, &replies)
}

#[test]
fn six_hundred_commands(rt: HostRuntime) -> Result<()> {
    run_first(&rt, rt.alloc(), 600)
}

//! The calls that the trait of iterators gives: over an iterator over pairs in memory, one that
//! fails, and either of two.

use bytes::Bytes;
use leveldb_base::cmp::DefaultCmp;
use leveldb_base::error::{Result, Status, StatusCode};
use leveldb_base::types::{
    Direction, LdbIterator, MAX_SEQUENCE_NUMBER, NUM_LEVELS, current_key_val,
};
use std::alloc::Global;
use support::Listed;

/// A walk that is refused at each move.
#[derive(Drop)]
struct Broken;

impl LdbIterator for Broken {
    ghost pairs = { ? };

    ghost position = { ? };

    ghost order = { ? };

    ghost fails = { ? };

    fn advance(&mut self) -> Result<bool> {
        refused()
    }

    fn prev(&mut self) -> Result<bool> {
        refused()
    }

    fn seek(&mut self, _key: &[u8]) -> Result<()> {
        refused()
    }

    fn seek_to_last(&mut self) -> Result<()> {
        refused()
    }

    fn current(&self) -> Option<(&[u8], &[u8])> {
        None
    }

    fn reset(&mut self) {}

    fn valid(&self) -> bool {
        false
    }

    ghost in_range = { ? };
}

fn refused<T>() -> Result<T> {
    Err(Status {
        code: StatusCode::IOError,
        err: None,
    })
}

/// A walk of one of two kinds.
#[derive(Drop)]
enum Either<A, B> {
    Left(A),
    Right(B),
}

impl<A: LdbIterator, B: LdbIterator> LdbIterator for Either<A, B> {
    ghost pairs = { ? };

    ghost position = { ? };

    ghost order = { ? };

    ghost fails = { ? };

    fn advance(&mut self) -> Result<bool> {
        match self {
            Either::Left(it) => it.advance(),
            Either::Right(it) => it.advance(),
        }
    }

    fn prev(&mut self) -> Result<bool> {
        match self {
            Either::Left(it) => it.prev(),
            Either::Right(it) => it.prev(),
        }
    }

    fn seek(&mut self, key: &[u8]) -> Result<()> {
        match self {
            Either::Left(it) => it.seek(key),
            Either::Right(it) => it.seek(key),
        }
    }

    fn seek_to_last(&mut self) -> Result<()> {
        match self {
            Either::Left(it) => it.seek_to_last(),
            Either::Right(it) => it.seek_to_last(),
        }
    }

    fn current(&self) -> Option<(&[u8], &[u8])> {
        match self {
            Either::Left(it) => it.current(),
            Either::Right(it) => it.current(),
        }
    }

    fn reset(&mut self) {
        match self {
            Either::Left(it) => it.reset(),
            Either::Right(it) => it.reset(),
        }
    }

    fn valid(&self) -> bool {
        match self {
            Either::Left(it) => it.valid(),
            Either::Right(it) => it.valid(),
        }
    }

    ghost in_range = { ? };
}

/// How many pairs come after its place, or in all where it has none. It ends at no place.
fn count_left<I: LdbIterator>(it: &mut I) -> Result<usize> {
    let mut n = 0;
    while it.advance()? {
        n += 1;
    }
    Ok(n)
}

const PAIRS: [(&[u8], &[u8]); 3] = [(b"a", b"1"), (b"ab", b""), (b"c", b"3")];

fn pair(i: Option<usize>) -> Option<(&'static [u8], &'static [u8])> {
    PAIRS.get(i?).copied()
}

fn walk(alloc: Global) -> Result<Either<Listed<DefaultCmp>, Broken>> {
    let mut pairs = Vec::new(alloc);
    for (key, value) in PAIRS {
        pairs.push((Bytes::from_static(key), Bytes::from_static(value)))?;
    }
    Ok(Either::Left(Listed::new(DefaultCmp, pairs)))
}

// A step forward or back.
fn step<I: LdbIterator>(it: &mut I, is_forward: bool) -> Result<bool> {
    if is_forward { it.advance() } else { it.prev() }
}

// To the first pair or to the last.
fn go_to_end<I: LdbIterator>(it: &mut I, is_first: bool) -> Result<()> {
    if is_first {
        it.seek_to_first()
    } else {
        it.seek_to_last()
    }
}

/// Makes the move of a letter: advance, prev, the first pair, the last, next, reset.
fn go_once<I: LdbIterator>(alloc: Global, it: &mut I, letter: u8) -> Result<()> {
    match letter {
        b'a' | b'p' => drop(step(it, letter == b'a')?),
        b'f' | b'l' => go_to_end(it, letter == b'f')?,
        b'n' => drop(it.next(alloc)?),
        _ => it.reset(),
    }
    Ok(())
}

fn go<I: LdbIterator>(alloc: Global, it: &mut I, moves: &str) -> Result<()> {
    for letter in moves.bytes() {
        go_once(alloc, it, letter)?;
    }
    Ok(())
}

// Whether an iterator is at the pair with this index, or at none.
fn is_at<I: LdbIterator>(it: &I, index: Option<usize>) -> bool {
    it.current() == pair(index) && it.valid() == index.is_some()
}

/// Moves, and the index of the pair after them.
const TURNS: [(&str, Option<usize>); 29] = [
    ("", None),
    ("a", Some(0)),
    ("aa", Some(1)),
    ("aaa", Some(2)),
    ("aaaa", None),
    ("aaaaa", Some(0)),
    ("p", None),
    ("pa", Some(0)),
    ("ap", None),
    ("apa", Some(0)),
    ("aap", Some(0)),
    ("aapa", Some(1)),
    ("aaap", Some(1)),
    ("aaapa", Some(2)),
    ("aaapp", Some(0)),
    ("aaappp", None),
    ("aaaap", None),
    ("f", Some(0)),
    ("aaf", Some(0)),
    ("fp", None),
    ("l", Some(2)),
    ("al", Some(2)),
    ("la", None),
    ("lp", Some(1)),
    ("n", Some(0)),
    ("nnn", Some(2)),
    ("nnnn", None),
    ("aar", None),
    ("aara", Some(0)),
];

#[test]
fn turns_at_every_position(rt: HostRuntime) -> Result<()> {
    let mut it = walk(rt.alloc())?;
    for (moves, index) in &TURNS {
        it.reset();
        go(rt.alloc(), &mut it, moves)?;
        assert!(rt; is_at(&it, *index), "after {moves}");
    }
    Ok(())
}

/// Keys, and the index of the first pair at or after each.
const SEEKS: [(&str, Option<usize>); 10] = [
    ("", Some(0)),
    ("A", Some(0)),
    ("a", Some(0)),
    ("a\0", Some(1)),
    ("ab", Some(1)),
    ("ab\0", Some(2)),
    ("b", Some(2)),
    ("c", Some(2)),
    ("c\0", None),
    ("d", None),
];

#[test]
fn seeks_at_and_between_all_keys(rt: HostRuntime) -> Result<()> {
    let mut it = walk(rt.alloc())?;
    for (key, index) in &SEEKS {
        it.seek(key.as_bytes())?;
        assert!(rt; is_at(&it, *index), "at {key}");
    }
    Ok(())
}

// Whether a copied pair is this one, or there is none of either.
fn is_copy(copied: &Option<(Vec<u8>, Vec<u8>)>, wanted: Option<(&[u8], &[u8])>) -> bool {
    match copied {
        None => wanted.is_none(),
        Some((key, value)) => wanted == Some((key.as_slice(), value.as_slice())),
    }
}

// Whether a step to the next pair gives a copy of the one with this index, and the iterator is then
// at it.
fn next_is<I: LdbIterator>(alloc: Global, it: &mut I, index: usize) -> Result<bool> {
    let next = it.next(alloc)?;
    let current = current_key_val(alloc, it)?;
    let wanted = pair(Some(index));
    Ok(is_copy(&next, wanted) && is_copy(&current, wanted))
}

#[test]
fn copies_pairs(rt: HostRuntime) -> Result<()> {
    let mut it = walk(rt.alloc())?;
    assert!(rt; current_key_val(rt.alloc(), &it)?.is_none());
    for index in 0..4 {
        assert!(rt; next_is(rt.alloc(), &mut it, index)?, "pair {index}");
    }
    Ok(())
}

#[test]
fn counts_what_is_left(rt: HostRuntime) -> Result<()> {
    let mut it = walk(rt.alloc())?;
    for (moves, left) in &[("", 3), ("a", 2), ("aaa", 0)] {
        it.reset();
        go(rt.alloc(), &mut it, moves)?;
        assert!(rt; count_left(&mut it)? == *left, "after {moves}");
    }
    Ok(())
}

#[test]
fn a_failed_move_leaves_no_position(rt: HostRuntime) {
    let mut it: Either<Listed<DefaultCmp>, Broken> = Either::Right(Broken);
    for moves in ["a", "p", "f", "l", "n"] {
        let answer = go(rt.alloc(), &mut it, moves);
        assert!(rt; answer.is_err() && it.current().is_none(), "{moves}");
    }
}

#[test]
fn numbers(rt: HostRuntime) {
    assert!(rt; NUM_LEVELS == 7);
    assert!(rt; MAX_SEQUENCE_NUMBER == 72_057_594_037_927_935);
    assert!(rt; Direction::Forward != Direction::Reverse);
}

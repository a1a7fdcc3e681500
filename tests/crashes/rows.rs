//! The slow store at worked rows: which maps an opening, a crash and a snapshot may show.
use leveldb_base::cmp::DefaultCmp;
use leveldb_base::error::Result;
use slow_history::{BorrowedPair, Landing, Move};
use slow_machine::{Found, Item, SlowStore};
use std::alloc::Global;
use std::process::Abort;

type Map = &'static [(&'static [u8], &'static [u8])];

const A: Map = &[(b"a", b"1")];

const AB: Map = &[(b"a", b"1"), (b"b", b"2")];

const ABC: Map = &[(b"a", b"1"), (b"b", b"2"), (b"c", b"3")];

const ABD: Map = &[(b"a", b"1"), (b"b", b"2"), (b"d", b"4")];

/// What a store did, or what the slow store says of that.
enum Row {
    Opened,
    /// It took a batch of one pair.
    Put(&'static [u8], &'static [u8]),
    /// It took a batch of one pair, with a sync.
    PutSynced(&'static [u8], &'static [u8]),
    /// It took a batch of one deletion.
    Deleted(&'static [u8]),
    /// It failed to sync a batch of one pair.
    FailedPut(&'static [u8], &'static [u8]),
    /// A look-up, under a snapshot or not, returned this.
    Found(Option<u64>, &'static [u8], Found<'static>),
    /// It showed this map.
    Showed(Map),
    WasBroken,
    Crashed,
    Abandoned,
    GaveSnapshot(u64),
    Released(u64),
    /// It refused a request of this snapshot, which it doesn't hold.
    WasNotHeld(u64),
    /// Moves of an iterator, under a snapshot or not, led there.
    Walked(Option<u64>, &'static [Move<'static>], &'static [Landing<'static>]),
    /// A store may have done all this.
    IsPossible,
    /// No store can have done all this.
    IsImpossible,
    /// A store may show exactly these maps.
    MayShow(&'static [Map]),
}

fn items(alloc: Global, key: &[u8], value: Option<&[u8]>) -> Result<Vec<Item>> {
    let value = match value {
        Some(value) => Some(Vec::from_slice(alloc, value)?),
        None => None,
    };
    let mut items = Vec::new(alloc);
    items.push(Item {
        key: Vec::from_slice(alloc, key)?,
        value,
    })?;
    Ok(items)
}

fn put(slow: &mut SlowStore, alloc: Global, key: &[u8], value: &[u8], sync: bool) -> Result<()> {
    slow.wrote(items(alloc, key, Some(value))?.as_slice(), sync)
}

fn delete(slow: &mut SlowStore, alloc: Global, key: &[u8]) -> Result<()> {
    slow.wrote(items(alloc, key, None)?.as_slice(), false)
}

fn fail_to_put(slow: &mut SlowStore, alloc: Global, key: &[u8], value: &[u8]) -> Result<()> {
    slow.refused_write(items(alloc, key, Some(value))?.as_slice(), true)
}

fn are_maps(found: &[Vec<BorrowedPair<'_>>], wanted: &[Map]) -> bool {
    for (map, wanted) in found.iter().zip(wanted) {
        if map.as_slice() != *wanted {
            return false;
        }
    }
    found.len() == wanted.len()
}

fn may_show(slow: &SlowStore, maps: &[Map]) -> Result<bool> {
    Ok(are_maps(&slow.maps(&DefaultCmp)?, maps))
}

fn happen(slow: &mut SlowStore, alloc: Global, row: &Row) -> Result<()> {
    match row {
        Row::Opened => slow.opened(),
        Row::Put(key, value) => put(slow, alloc, key, value, false),
        Row::PutSynced(key, value) => put(slow, alloc, key, value, true),
        Row::Deleted(key) => delete(slow, alloc, key),
        Row::FailedPut(key, value) => fail_to_put(slow, alloc, key, value),
        Row::Found(at, key, found) => slow.found(*at, key, found),
        Row::Showed(map) => slow.showed(&DefaultCmp, None, map),
        Row::WasBroken => slow.was_broken(),
        Row::Crashed => slow.crashed(),
        Row::Abandoned => slow.abandoned(),
        Row::GaveSnapshot(number) => slow.gave_snapshot(*number),
        Row::Released(number) => slow.released(*number),
        Row::WasNotHeld(number) => slow.was_not_held(*number),
        Row::Walked(at, moves, landings) => slow.walked(&DefaultCmp, *at, moves, landings),
        Row::IsPossible | Row::IsImpossible | Row::MayShow(_) => Ok(()),
    }
}

/// Lets this happen, and returns whether what the slow store is to say is so.
fn is_right(slow: &mut SlowStore, alloc: Global, row: &Row) -> Result<bool> {
    match row {
        Row::IsPossible => Ok(slow.is_possible()),
        Row::IsImpossible => Ok(!slow.is_possible()),
        Row::MayShow(maps) => may_show(slow, maps),
        _ => {
            happen(slow, alloc, row)?;
            Ok(true)
        }
    }
}

/// All this happens to a store, one after another.
fn play(rt: &impl Abort, alloc: Global, rows: &[Row]) -> Result<()> {
    let mut slow = SlowStore::new(alloc)?;
    for (at, row) in rows.iter().enumerate() {
        assert!(rt; is_right(&mut slow, alloc, row)?, "row {at}");
    }
    Ok(())
}

const TORN_TAIL: &[Row] = &[
    Row::Opened,
    Row::Put(b"a", b"1"),
    Row::PutSynced(b"b", b"2"),
    Row::Put(b"c", b"3"),
    Row::Crashed,
    Row::Opened,
    Row::MayShow(&[AB, ABC]),
    Row::Showed(AB),
    Row::PutSynced(b"d", b"4"),
    Row::Crashed,
    Row::Opened,
    Row::MayShow(&[ABD]),
];

/// The disk had a torn tail: the store that was found has two batches. It goes on from there, and
/// no crash can bring the third back.
#[test]
fn a_crash_keeps_what_was_synced(rt: HostRuntime) -> Result<()> {
    play(&rt, rt.alloc(), TORN_TAIL)
}

const HALF: &[Row] = &[
    Row::Opened,
    Row::Put(b"a", b"1"),
    Row::PutSynced(b"b", b"2"),
    Row::Put(b"c", b"3"),
    Row::Crashed,
    Row::Opened,
    Row::IsPossible,
    Row::Showed(A),
    Row::IsImpossible,
];

#[test]
fn half_of_what_was_synced_is_never_found(rt: HostRuntime) -> Result<()> {
    play(&rt, rt.alloc(), HALF)
}

const FAILED_SYNC: &[Row] = &[
    Row::Opened,
    Row::Put(b"a", b"1"),
    Row::FailedPut(b"b", b"2"),
    Row::Found(None, b"b", Found::Nothing),
    Row::WasBroken,
    Row::Crashed,
    Row::Opened,
    Row::MayShow(&[&[], A, AB]),
];

#[test]
fn a_failed_sync_leaves_its_batch_open(rt: HostRuntime) -> Result<()> {
    play(&rt, rt.alloc(), FAILED_SYNC)
}

const DELETION: &[Row] = &[
    Row::Opened,
    Row::Put(b"k", b"1"),
    Row::Deleted(b"k"),
    Row::Found(None, b"k", Found::Nothing),
    Row::Put(b"", b""),
    Row::Found(None, b"", Found::Value(b"")),
    Row::Abandoned,
    Row::Opened,
    Row::Found(None, b"k", Found::Nothing),
    Row::MayShow(&[&[(b"", b"")]]),
];

#[test]
fn a_deletion_an_empty_key_and_a_reopening(rt: HostRuntime) -> Result<()> {
    play(&rt, rt.alloc(), DELETION)
}

const SNAPSHOT: &[Row] = &[
    Row::Opened,
    Row::Put(b"k", b"1"),
    Row::GaveSnapshot(0),
    Row::Put(b"k", b"2"),
    Row::Found(Some(0), b"k", Found::Value(b"1")),
    Row::Found(None, b"k", Found::Value(b"2")),
    Row::Released(0),
    Row::Found(Some(0), b"k", Found::NotHeld),
    Row::IsPossible,
    Row::Released(0),
    Row::IsImpossible,
];

#[test]
fn a_snapshot_keeps_its_view(rt: HostRuntime) -> Result<()> {
    play(&rt, rt.alloc(), SNAPSHOT)
}

const NUMBERS: &[Row] = &[
    Row::Opened,
    Row::GaveSnapshot(0),
    Row::Released(0),
    Row::WasNotHeld(0),
    Row::WasNotHeld(7),
    Row::GaveSnapshot(1),
    Row::IsPossible,
    Row::WasNotHeld(1),
    Row::IsImpossible,
];

const GIVEN_TWICE: &[Row] = &[
    Row::Opened,
    Row::GaveSnapshot(0),
    Row::Released(0),
    Row::IsPossible,
    Row::GaveSnapshot(0),
    Row::IsImpossible,
];

const GIVEN_ANEW: &[Row] = &[
    Row::Opened,
    Row::GaveSnapshot(0),
    Row::Abandoned,
    Row::Opened,
    Row::WasNotHeld(0),
    Row::GaveSnapshot(0),
    Row::IsPossible,
];

/// A number is given once, until the store is opened again, and is refused when it isn't held.
#[test]
fn snapshots_have_numbers(rt: HostRuntime) -> Result<()> {
    play(&rt, rt.alloc(), NUMBERS)?;
    play(&rt, rt.alloc(), GIVEN_TWICE)?;
    play(&rt, rt.alloc(), GIVEN_ANEW)
}

const TURNS: &[Row] = &[
    Row::Opened,
    Row::Walked(None, &[Move::Next], &[Landing::Nowhere]),
    Row::Put(b"a", b"1"),
    Row::Put(b"b", b"2"),
    Row::GaveSnapshot(0),
    Row::Put(b"c", b"3"),
    Row::Deleted(b"b"),
    Row::Walked(
        None,
        &[
            Move::Seek(b"c"),
            Move::Prev,
            Move::Prev,
            Move::Prev,
            Move::Next,
        ],
        &[
            Landing::At(b"c", b"3"),
            Landing::At(b"a", b"1"),
            Landing::Nowhere,
            Landing::Nowhere,
            Landing::At(b"a", b"1"),
        ],
    ),
    Row::Walked(
        Some(0),
        &[Move::First, Move::Next, Move::Next, Move::Seek(b"aa")],
        &[
            Landing::At(b"a", b"1"),
            Landing::At(b"b", b"2"),
            Landing::Nowhere,
            Landing::At(b"b", b"2"),
        ],
    ),
    // A move that fails leaves no position.
    Row::Walked(
        None,
        &[Move::Seek(b"c"), Move::Prev, Move::Prev, Move::Next],
        &[
            Landing::At(b"c", b"3"),
            Landing::Refused,
            Landing::Nowhere,
            Landing::At(b"a", b"1"),
        ],
    ),
    Row::Walked(None, &[], &[]),
    Row::IsPossible,
];

#[test]
fn walks_turn_at_both_ends(rt: HostRuntime) -> Result<()> {
    play(&rt, rt.alloc(), TURNS)
}

/// Walks that no store of a=1 and c=3 does.
const WRONG_WALKS: &[(&[Move<'static>], &[Landing<'static>])] = &[
    (&[Move::First], &[Landing::Nowhere]),
    (&[Move::First], &[Landing::At(b"a", b"2")]),
    (&[Move::First], &[Landing::At(b"c", b"3")]),
    (&[Move::Seek(b"b")], &[Landing::At(b"a", b"1")]),
    (&[Move::Seek(b"c")], &[Landing::Nowhere]),
    (&[Move::Prev], &[Landing::At(b"c", b"3")]),
    (&[Move::First], &[]),
    (&[], &[Landing::Nowhere]),
    (
        &[Move::First, Move::Prev],
        &[Landing::At(b"a", b"1"), Landing::At(b"a", b"1")],
    ),
    (
        &[Move::First, Move::Next],
        &[Landing::Refused, Landing::At(b"c", b"3")],
    ),
];

fn is_wrong(alloc: Global, moves: &[Move<'_>], landings: &[Landing<'_>]) -> Result<bool> {
    let mut slow = SlowStore::new(alloc)?;
    slow.opened()?;
    put(&mut slow, alloc, b"a", b"1", false)?;
    put(&mut slow, alloc, b"c", b"3", false)?;
    slow.walked(&DefaultCmp, None, moves, landings)?;
    Ok(!slow.is_possible())
}

#[test]
fn wrong_walks_are_impossible(rt: HostRuntime) -> Result<()> {
    for (at, (moves, landings)) in WRONG_WALKS.iter().enumerate() {
        assert!(rt; is_wrong(rt.alloc(), moves, landings)?, "row {at}");
    }
    Ok(())
}

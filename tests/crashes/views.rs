//! Snapshots and walks of a store with a memtable of 300 bytes on a recording device: crashes and
//! failures come at each moment and call of a script. And walks over tables of which one can't be
//! read.
use super::crash_disks::{Script, Setting, Tails, assert_tally, record, record_life};
use super::steps::{Call, Step};
use super::sweep::{crash_everywhere, fail_everywhere, is_possible};
use leveldb_base::error::Result;
use rusty_leveldb::shell::{Reply, Step as ShellStep};
use slow_history::Move;
use std::alloc::Global;
use std::process::Abort;
use support::damage_file;

/// Over all pairs, past both ends.
const ALL: &[Move<'static>] = &[
    Move::First,
    Move::Next,
    Move::Next,
    Move::Next,
    Move::Next,
    Move::Prev,
    Move::Next,
];

const TURNING: &[Move<'static>] = &[
    Move::Seek(b"c"),
    Move::Prev,
    Move::Next,
    Move::Next,
    Move::Prev,
    Move::Prev,
    Move::Prev,
    Move::Prev,
    Move::Next,
];

/// Two lives of one store, the first closed, the second abandoned. Each begins with a look-up,
/// whose reply shows when its opening returned. Three entries fill the memtable, so that the walks
/// go over tables of three levels and the memtable.
const FIRST: &[Step] = &[
    Step::Get("a"),
    Step::Put("a", "1"),
    Step::Snap,
    Step::Write(true, &[("b", Some("2"))]),
    Step::Put("c", "3"),
    Step::Walk(None, TURNING),
    Step::Put("d", "4"),
    Step::Delete("a"),
    Step::Snap,
    Step::Walk(Some(0), ALL),
    Step::Write(false, &[("b", Some("5")), ("d", None)]),
    Step::GetAt(0, "a"),
    Step::GetAt(1, "a"),
    Step::Walk(Some(1), TURNING),
    Step::Put("e", ""),
    Step::Release(0),
    Step::GetAt(0, "a"),
    Step::Release(0),
    Step::Walk(Some(0), ALL),
    Step::Flush,
    Step::Walk(None, ALL),
    Step::Put("a", "6"),
    Step::Walk(Some(1), ALL),
    Step::Close,
    Step::Snap,
    Step::GetAt(1, "b"),
    Step::Walk(None, ALL),
];

const SECOND: &[Step] = &[
    Step::Get("e"),
    Step::GetAt(1, "b"),
    Step::Snap,
    Step::Write(true, &[("a", None), ("", Some("8"))]),
    Step::Walk(None, ALL),
    Step::Walk(Some(0), TURNING),
    Step::Put("d", "9"),
    Step::GetAt(0, "a"),
    Step::Release(0),
    Step::Release(1),
    Step::Walk(None, TURNING),
];

pub const SCRIPT: Script<'static> = Script {
    setting: Setting {
        write_buffer_size: 300,
        max_file_size: 2 << 20,
        reuses: true,
        keys: 6,
    },
    every: 1,
    lives: &[FIRST, SECOND],
};

#[test]
fn crashes_without_tails(rt: HostRuntime) -> Result<()> {
    let tally = crash_everywhere(&rt, rt.alloc(), SCRIPT.one_of(5), Tails::Nothing)?;
    assert_tally(
        &rt,
        tally,
        tally.shortest > 0 && tally.shortest < tally.open,
    );
    Ok(())
}

#[test]
fn crashes_with_whole_tails(rt: HostRuntime) -> Result<()> {
    let tally = crash_everywhere(&rt, rt.alloc(), SCRIPT.one_of(5), Tails::Whole)?;
    assert_tally(&rt, tally, tally.longest > 0);
    Ok(())
}

#[test]
fn failures_without_their_change(rt: HostRuntime) -> Result<()> {
    let tally = fail_everywhere(&rt, rt.alloc(), SCRIPT.one_of(15), false)?;
    assert_tally(&rt, tally, tally.open > 0);
    Ok(())
}

#[test]
fn failures_with_their_change(rt: HostRuntime) -> Result<()> {
    let tally = fail_everywhere(&rt, rt.alloc(), SCRIPT.one_of(15), true)?;
    assert_tally(&rt, tally, tally.open > 0);
    Ok(())
}

/// Three tables of one key each, and a fourth key, of which the next opening makes a table.
const TABLES: Script<'static> = Script {
    setting: Setting {
        write_buffer_size: 1,
        max_file_size: 2 << 20,
        reuses: true,
        keys: 6,
    },
    every: 1,
    lives: &[&[
        Step::Put("a", "1"),
        Step::Put("b", "2"),
        Step::Put("c", "3"),
        Step::Put("d", "4"),
    ]],
};

/// A walk over them where the table of b can't be read, and what each move leads to: a key, no
/// position (`-`) or a failure (`!`).
const OVER_A_LOST_TABLE: &[Move<'static>] = &[
    Move::First,
    Move::Next,
    Move::Next,
    Move::Seek(b"c"),
    Move::Prev,
    Move::Prev,
    Move::Seek(b"b"),
    Move::Next,
    Move::Seek(b"d"),
];

const LEADS: &str = "a!ac!-!ad";

/// A key, `-` for no position, or `!` for a failure.
fn sign_of(led: &ShellStep) -> &str {
    match led {
        ShellStep::At(key, _) => std::str::from_utf8(key.as_slice()).unwrap_or("?"),
        ShellStep::Invalid => "-",
        ShellStep::Refused(_) => "!",
    }
}

fn signs_of(alloc: Global, steps: &[ShellStep]) -> Result<String> {
    let mut signs = String::new(alloc);
    for led in steps {
        signs.push_str(sign_of(led))?;
    }
    Ok(signs)
}

/// Whether the last walk of these calls led there.
fn led_to(alloc: Global, calls: &[Call], wanted: &str) -> Result<bool> {
    for call in calls.iter().rev() {
        if let Reply::Walk(steps) = &call.reply {
            return Ok(signs_of(alloc, steps)?.as_str() == wanted);
        }
    }
    Ok(false)
}

/// One byte of the table of b is wrong when the store is opened again.
fn walk_over_damage(rt: &impl Abort, alloc: Global, at: usize) -> Result<()> {
    let mut recorded = record(alloc, TABLES)?;
    damage_file(alloc, &mut recorded.env, "000007.ldb", at)?;
    let walk = [Step::Walk(None, OVER_A_LOST_TABLE)];
    record_life(alloc, &mut recorded, &walk)?;
    assert!(rt; led_to(alloc, &recorded.calls, LEADS)?, "byte {at}");
    assert!(rt; is_possible(alloc, &recorded)?, "byte {at}");
    Ok(())
}

/// One of so many bytes of the table is wrong.
pub fn walk_over_each_byte(rt: &impl Abort, alloc: Global, every: usize) -> Result<()> {
    for at in 0..177 {
        if at % every == 0 {
            walk_over_damage(rt, alloc, at)?;
        }
    }
    Ok(())
}

/// A move that needs a table which can't be read fails and leaves no position, and no move leads
/// outside the view.
#[test]
fn walks_over_a_damaged_table(rt: HostRuntime) -> Result<()> {
    walk_over_each_byte(&rt, rt.alloc(), 5)
}

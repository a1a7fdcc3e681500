//! A store with a memtable of one byte, each write of which makes a table, so that level 0 fills up
//! and writes compact it. Crashes and failures come at each moment and call of its script, inside
//! these compactions too.
use super::crash_disks::{Script, Setting, Tails, assert_tally, record};
use super::steps::Step;
use super::sweep::{crash_everywhere, fail_everywhere};
use leveldb_base::error::Result;
use leveldb_disks::mem_env::RecordEnv;
use leveldb_env::env::Env;
use slow_history::Move;
use std::alloc::Global;

/// Over all pairs and back.
const ALL: &[Move<'static>] = &[
    Move::First,
    Move::Next,
    Move::Next,
    Move::Next,
    Move::Next,
    Move::Next,
    Move::Seek(b"d"),
    Move::Prev,
    Move::Prev,
    Move::Prev,
];

/// Two lives of one store, the first closed, the second abandoned. Each begins with a look-up,
/// whose reply shows when its opening returned.
const FIRST: &[Step] = &[
    Step::Get("a"),
    Step::Put("a", "1"),
    Step::Put("b", "2"),
    Step::Put("a", "3"),
    Step::Write(true, &[("c", Some("4")), ("a", Some("5"))]),
    Step::Snap,
    Step::Put("a", "6"),
    Step::Write(false, &[("a", None), ("b", Some("7"))]),
    Step::Put("a", "8"),
    Step::Put("a", "9"),
    Step::GetAt(0, "a"),
    Step::Write(true, &[("d", Some("1")), ("a", Some("2"))]),
    Step::Put("a", "3"),
    Step::Walk(Some(0), ALL),
    Step::Put("a", "4"),
    Step::Close,
];

const SECOND: &[Step] = &[
    Step::Get("a"),
    Step::Delete("a"),
    Step::Put("b", "5"),
    Step::Walk(None, ALL),
    Step::Put("a", "6"),
    Step::Write(true, &[("a", Some("7")), ("c", None)]),
    Step::Put("a", "8"),
    Step::Put("a", "9"),
    Step::Put("a", "0"),
    Step::Walk(None, ALL),
];

/// Eight tables, of which the last but one is the fourth of level 0.
const ONE_COMPACTION: &[Step] = &[
    Step::Get("a"),
    Step::Put("a", "1"),
    Step::Put("a", "2"),
    Step::Snap,
    Step::Write(true, &[("a", Some("3")), ("b", Some("4"))]),
    Step::Put("a", "5"),
    Step::Write(false, &[("a", None), ("c", Some("6"))]),
    Step::Put("a", "7"),
    Step::Put("a", "8"),
    Step::Walk(Some(0), ALL),
    Step::Put("b", "9"),
    Step::Walk(None, ALL),
];

pub const SHORT: Script<'static> = Script {
    setting: Setting {
        write_buffer_size: 1,
        max_file_size: 2 << 20,
        reuses: true,
        keys: 6,
    },
    every: 1,
    lives: &[ONE_COMPACTION],
};

/// The last log and the manifest are used on by each opening.
pub const SCRIPT: Script<'static> = Script {
    setting: Setting {
        write_buffer_size: 1,
        max_file_size: 2 << 20,
        reuses: true,
        keys: 6,
    },
    every: 1,
    lives: &[FIRST, SECOND],
};

/// A table for each key, and a new manifest at each opening.
pub const APART: Script<'static> = Script {
    setting: Setting {
        write_buffer_size: 1,
        max_file_size: 1,
        reuses: false,
        keys: 6,
    },
    every: 1,
    lives: &[FIRST, SECOND],
};

fn count_tables(alloc: Global, env: &mut RecordEnv) -> Result<usize> {
    let names = env.children(alloc, "db")?;
    Ok(
        names
            .iter()
            .filter(|name| name.as_str().ends_with(".ldb"))
            .count(),
    )
}

/// How many tables there are after a script.
fn tables_after(alloc: Global, script: Script<'_>) -> Result<usize> {
    let mut recorded = record(alloc, script)?;
    count_tables(alloc, &mut recorded.env)
}

/// Of seven tables that the first script makes, and of twenty of the longer one, compactions leave
/// few.
#[test]
fn compactions_of_level_0(rt: HostRuntime) -> Result<()> {
    let tables = tables_after(rt.alloc(), SHORT)?;
    assert!(rt; tables <= 4, "{tables} tables");
    let tables = tables_after(rt.alloc(), SCRIPT)?;
    assert!(rt; tables <= 6, "{tables} tables");
    Ok(())
}

#[test]
fn crashes_without_tails(rt: HostRuntime) -> Result<()> {
    let tally = crash_everywhere(&rt, rt.alloc(), SHORT.one_of(11), Tails::Nothing)?;
    assert_tally(&rt, tally, tally.shortest > 2);
    Ok(())
}

#[test]
fn crashes_with_whole_tails(rt: HostRuntime) -> Result<()> {
    let tally = crash_everywhere(&rt, rt.alloc(), SHORT.one_of(11), Tails::Whole)?;
    assert_tally(&rt, tally, tally.longest > 2);
    Ok(())
}

#[test]
fn failures_without_their_change(rt: HostRuntime) -> Result<()> {
    let tally = fail_everywhere(&rt, rt.alloc(), SHORT.one_of(15), false)?;
    assert_tally(&rt, tally, tally.open > 0);
    Ok(())
}

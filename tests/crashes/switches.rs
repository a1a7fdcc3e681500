//! A store with a memtable of 300 bytes on a recording device: logs are switched and tables are
//! made. Crashes and failures come at each moment and call of its script.
use super::crash_disks::{Script, Setting, Tails, assert_tally, record};
use super::steps::Step;
use super::sweep::{crash_everywhere, crash_twice_everywhere, fail_everywhere};
use leveldb_base::error::Result;
use slow_store::has_levels;
use std::alloc::Global;

/// Two lives of one store, the first closed, the second abandoned. Each begins with a look-up,
/// whose reply shows when its opening returned. Three entries fill the memtable, and the next write
/// makes a table of them; most of these weren't durable before. If the last table isn't made, since
/// a call fails, a synced batch comes to the new log while those before it wait. The first table is
/// in level 2, the second one in level 1 and the others in level 0. Look-ups of c, b and d find
/// what one of these levels has and go through tables of the levels above it, and those of a find
/// deletions.
const FIRST: &[Step] = &[
    Step::Get("a"),
    Step::Put("a", "1"),
    Step::Write(true, &[("b", Some("2"))]),
    Step::Put("c", "3"),
    Step::Put("d", "4"),
    Step::Delete("a"),
    Step::Write(false, &[("b", Some("5")), ("d", None)]),
    Step::Get("a"),
    Step::Put("e", ""),
    Step::Get("a"),
    Step::Flush,
    Step::Write(false, &[]),
    Step::Put("a", "6"),
    Step::Get("c"),
    Step::Close,
];

const SECOND: &[Step] = &[
    Step::Get("e"),
    Step::Put("c", "7"),
    Step::Write(true, &[("a", None), ("", Some("8"))]),
    Step::Get("b"),
    Step::Put("d", "9"),
    Step::Get("d"),
    Step::Put("e", "0"),
    Step::Get("c"),
    Step::Get("a"),
    Step::Write(true, &[("", None)]),
    Step::Put("b", "1"),
];

/// The last log and the manifest are used on by each opening.
pub const REUSING: Script<'static> = Script {
    setting: Setting {
        write_buffer_size: 300,
        max_file_size: 2 << 20,
        reuses: true,
        keys: 6,
    },
    every: 1,
    lives: &[FIRST, SECOND],
};

/// Each opening makes a new manifest, and a table of what the logs have.
pub const ANEW: Script<'static> = Script {
    setting: Setting {
        write_buffer_size: 300,
        max_file_size: 2 << 20,
        reuses: false,
        keys: 6,
    },
    every: 1,
    lives: &[FIRST, SECOND],
};

/// Whether the tables are in these levels after a script.
fn leaves(alloc: Global, script: Script<'_>, levels: &str) -> Result<bool> {
    let mut recorded = record(alloc, script)?;
    has_levels(alloc, &mut recorded.env, "db", levels)
}

/// An opening that uses no log on makes one more table of level 0.
#[test]
fn tables_in_three_levels(rt: HostRuntime) -> Result<()> {
    let wanted = "level 0: 2 files, 403 bytes ([(10, 202), (12, 201)]); \
        level 1: 1 files, 213 bytes ([(7, 213)]); level 2: 1 files, 203 bytes ([(5, 203)]); ";
    assert!(rt; leaves(rt.alloc(), REUSING, wanted)?);
    let wanted = "level 0: 3 files, 591 bytes ([(11, 189), (14, 201), (16, 201)]); \
        level 1: 1 files, 213 bytes ([(8, 213)]); level 2: 1 files, 203 bytes ([(6, 203)]); ";
    assert!(rt; leaves(rt.alloc(), ANEW, wanted)?);
    Ok(())
}

/// Where a switch has synced the log, a crash loses less than it may.
#[test]
fn crashes_without_tails(rt: HostRuntime) -> Result<()> {
    let tally = crash_everywhere(&rt, rt.alloc(), REUSING.one_of(11), Tails::Nothing)?;
    assert_tally(
        &rt,
        tally,
        tally.shortest > 2 && tally.shortest < tally.open,
    );
    Ok(())
}

#[test]
fn crashes_with_whole_tails(rt: HostRuntime) -> Result<()> {
    let tally = crash_everywhere(&rt, rt.alloc(), REUSING.one_of(11), Tails::Whole)?;
    assert_tally(&rt, tally, tally.longest > 2);
    Ok(())
}

#[test]
fn crashes_without_the_last_byte(rt: HostRuntime) -> Result<()> {
    let tally = crash_everywhere(&rt, rt.alloc(), REUSING.one_of(11), Tails::WithoutLast)?;
    assert_tally(&rt, tally, tally.shortest > 2);
    Ok(())
}

#[test]
fn crashes_with_wrong_bytes(rt: HostRuntime) -> Result<()> {
    let tally = crash_everywhere(&rt, rt.alloc(), REUSING.one_of(11), Tails::WrongBytes)?;
    assert_tally(&rt, tally, tally.shortest > 2);
    Ok(())
}

#[test]
fn crashes_of_new_manifests(rt: HostRuntime) -> Result<()> {
    let tally = crash_everywhere(&rt, rt.alloc(), ANEW.one_of(11), Tails::Nothing)?;
    assert_tally(
        &rt,
        tally,
        tally.shortest > 2 && tally.shortest < tally.open,
    );
    Ok(())
}

#[test]
fn crashes_of_new_manifests_with_tails(rt: HostRuntime) -> Result<()> {
    let tally = crash_everywhere(&rt, rt.alloc(), ANEW.one_of(11), Tails::Whole)?;
    assert_tally(&rt, tally, tally.longest > 2);
    Ok(())
}

#[test]
fn crashes_of_new_manifests_with_wrong_bytes(rt: HostRuntime) -> Result<()> {
    let tally = crash_everywhere(&rt, rt.alloc(), ANEW.one_of(11), Tails::WrongBytes)?;
    assert_tally(&rt, tally, tally.shortest > 2);
    Ok(())
}

#[test]
fn second_crashes(rt: HostRuntime) -> Result<()> {
    let kinds = (Tails::WithoutLast, Tails::Nothing);
    let openings = crash_twice_everywhere(&rt, rt.alloc(), REUSING.one_of(31), kinds)?;
    assert!(rt; openings > 20, "{openings}");
    Ok(())
}

#[test]
fn second_crashes_with_wrong_bytes(rt: HostRuntime) -> Result<()> {
    let kinds = (Tails::Whole, Tails::WrongBytes);
    let openings = crash_twice_everywhere(&rt, rt.alloc(), REUSING.one_of(31), kinds)?;
    assert!(rt; openings > 20, "{openings}");
    Ok(())
}

#[test]
fn second_crashes_of_new_manifests(rt: HostRuntime) -> Result<()> {
    let kinds = (Tails::Nothing, Tails::WithoutLast);
    let openings = crash_twice_everywhere(&rt, rt.alloc(), ANEW.one_of(91), kinds)?;
    assert!(rt; openings > 20, "{openings}");
    Ok(())
}

#[test]
fn failures_without_their_change(rt: HostRuntime) -> Result<()> {
    let tally = fail_everywhere(&rt, rt.alloc(), REUSING.one_of(19), false)?;
    assert_tally(&rt, tally, tally.shortest > 0 && tally.longest > 0);
    Ok(())
}

#[test]
fn failures_with_their_change(rt: HostRuntime) -> Result<()> {
    let tally = fail_everywhere(&rt, rt.alloc(), REUSING.one_of(19), true)?;
    assert_tally(&rt, tally, tally.shortest > 0 && tally.longest > 0);
    Ok(())
}

#[test]
fn failures_of_new_manifests(rt: HostRuntime) -> Result<()> {
    let tally = fail_everywhere(&rt, rt.alloc(), ANEW.one_of(19), false)?;
    assert_tally(&rt, tally, tally.shortest > 0 && tally.longest > 0);
    Ok(())
}

#[test]
fn failures_of_new_manifests_with_their_change(rt: HostRuntime) -> Result<()> {
    let tally = fail_everywhere(&rt, rt.alloc(), ANEW.one_of(19), true)?;
    assert_tally(&rt, tally, tally.shortest > 0 && tally.longest > 0);
    Ok(())
}

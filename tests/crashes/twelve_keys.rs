//! A script that has each kind of call, over twelve keys in small tables, which is swept whole: a
//! crash at each moment, and each call of the device failing once. Most second crashes, and crashes
//! by `lives`, are among the long tests.
use super::crash_disks::{Script, Setting, Tails, assert_tally};
use super::steps::Step;
use super::sweep::{crash_everywhere, crash_twice_everywhere, fail_everywhere};
use leveldb_base::error::Result;
use slow_history::Move;

/// Over all twelve pairs, past both ends.
pub const OVER_ALL: &[Move<'static>] = &[
    Move::First,
    Move::Next,
    Move::Next,
    Move::Next,
    Move::Next,
    Move::Next,
    Move::Next,
    Move::Next,
    Move::Next,
    Move::Next,
    Move::Next,
    Move::Next,
    Move::Next,
    Move::Prev,
    Move::Seek(b"l"),
    Move::Prev,
];

/// Every fourth batch is synced. It begins with a look-up, which makes no call of the device and
/// whose reply shows when the opening returned.
pub const STEPS: &[Step] = &[
    Step::Get("a"),
    Step::Put("a", "1"),
    Step::Put("b", "2"),
    Step::Put("c", "3"),
    Step::Write(true, &[("d", Some("4"))]),
    Step::Put("e", "5"),
    Step::Put("f", "6"),
    Step::Put("g", "7"),
    Step::Write(true, &[("h", Some("8"))]),
    Step::Put("i", "9"),
    Step::Put("j", "10"),
    Step::Put("k", "11"),
    Step::Write(true, &[("l", Some("12"))]),
    Step::Delete("a"),
    Step::Snap,
    Step::Compact("", ""),
    Step::Walk(None, OVER_ALL),
];

/// Three entries fill the memtable.
pub const SCRIPT: Script<'static> = Script {
    setting: Setting {
        write_buffer_size: 300,
        max_file_size: 2 << 20,
        reuses: true,
        keys: 13,
    },
    every: 1,
    lives: &[STEPS],
};

#[test]
fn crashes_without_tails(rt: HostRuntime) -> Result<()> {
    let tally = crash_everywhere(&rt, rt.alloc(), SCRIPT.one_of(5), Tails::Nothing)?;
    assert_tally(
        &rt,
        tally,
        tally.shortest > 5 && tally.shortest < tally.open,
    );
    Ok(())
}

#[test]
fn crashes_with_whole_tails(rt: HostRuntime) -> Result<()> {
    let tally = crash_everywhere(&rt, rt.alloc(), SCRIPT.one_of(5), Tails::Whole)?;
    assert_tally(&rt, tally, tally.longest > 5);
    Ok(())
}

#[test]
fn crashes_without_the_last_byte(rt: HostRuntime) -> Result<()> {
    let tally = crash_everywhere(&rt, rt.alloc(), SCRIPT.one_of(5), Tails::WithoutLast)?;
    assert_tally(&rt, tally, tally.shortest > 5);
    Ok(())
}

#[test]
fn crashes_with_a_wrong_byte(rt: HostRuntime) -> Result<()> {
    let tally = crash_everywhere(&rt, rt.alloc(), SCRIPT.one_of(5), Tails::WrongLogBytes)?;
    assert_tally(&rt, tally, tally.shortest > 5);
    Ok(())
}

#[test]
fn second_crashes(rt: HostRuntime) -> Result<()> {
    let kinds = (Tails::Nothing, Tails::Nothing);
    let openings = crash_twice_everywhere(&rt, rt.alloc(), SCRIPT.one_of(31), kinds)?;
    assert!(rt; openings > 20, "{openings}");
    Ok(())
}

#[test]
fn failures_without_their_change(rt: HostRuntime) -> Result<()> {
    let tally = fail_everywhere(&rt, rt.alloc(), SCRIPT.one_of(15), false)?;
    assert_tally(&rt, tally, tally.shortest > 0 && tally.longest > 0);
    Ok(())
}

#[test]
fn failures_with_their_change(rt: HostRuntime) -> Result<()> {
    let tally = fail_everywhere(&rt, rt.alloc(), SCRIPT.one_of(15), true)?;
    assert_tally(&rt, tally, tally.shortest > 0 && tally.longest > 0);
    Ok(())
}

//! A store of one log on a recording device, and crashes and failures at each moment and call of
//! its script.
use super::crash_disks::{DEFAULTS, Script, Tails, assert_tally};
use super::steps::Step;
use super::sweep::{crash_everywhere, crash_twice_everywhere, fail_everywhere};
use leveldb_base::error::Result;

/// Three lives of one store, the first closed, the others abandoned. Each begins with a look-up,
/// whose reply shows when its opening returned.
const FIRST: &[Step] = &[
    Step::Get("a"),
    Step::Put("a", "1"),
    Step::Put("b", "2"),
    Step::Write(true, &[("c", Some("3"))]),
    Step::Delete("a"),
    Step::Write(false, &[("d", Some("4")), ("b", None)]),
    Step::Get("b"),
    Step::Flush,
    Step::Put("e", ""),
    Step::Write(false, &[]),
    Step::Close,
    Step::Get("c"),
    Step::Put("a", "5"),
];

const SECOND: &[Step] = &[
    Step::Get("e"),
    Step::Put("a", "6"),
    Step::Write(true, &[("a", None), ("", Some("7"))]),
    Step::Put("d", "8"),
];

const THIRD: &[Step] = &[
    Step::Get("d"),
    Step::Write(false, &[("c", Some("9")), ("e", Some("0"))]),
    Step::Flush,
    Step::Delete("d"),
    Step::Get("d"),
];

const SCRIPT: Script<'static> = Script {
    setting: DEFAULTS,
    every: 1,
    lives: &[FIRST, SECOND, THIRD],
};

const TWO_LIVES: Script<'static> = Script {
    setting: DEFAULTS,
    every: 1,
    lives: &[FIRST, SECOND],
};

/// Nothing is left of what isn't durable: where a batch may be lost, it is, but at the two moments
/// of the close that come after its sync, before and inside the call that gives back the lock, of
/// which the second counts twice.
#[test]
fn crashes_without_tails(rt: HostRuntime) -> Result<()> {
    let tally = crash_everywhere(&rt, rt.alloc(), TWO_LIVES, Tails::Nothing)?;
    let kept = tally.open.saturating_sub(tally.shortest);
    assert_tally(
        &rt,
        tally,
        tally.open > 20 && kept == 3 && tally.longest == 3,
    );
    Ok(())
}

/// The third opening makes durable what the second life left without a sync.
#[test]
fn crashes_without_tails_in_three_lives(rt: HostRuntime) -> Result<()> {
    let tally = crash_everywhere(&rt, rt.alloc(), SCRIPT, Tails::Nothing)?;
    assert_tally(&rt, tally, tally.shortest > 20 && tally.longest > 0);
    Ok(())
}

#[test]
fn crashes_with_whole_tails(rt: HostRuntime) -> Result<()> {
    let tally = crash_everywhere(&rt, rt.alloc(), SCRIPT, Tails::Whole)?;
    assert_tally(&rt, tally, tally.open > 20 && tally.longest > 20);
    Ok(())
}

/// A torn batch is lost whole, and those before it are found.
#[test]
fn crashes_without_the_last_byte(rt: HostRuntime) -> Result<()> {
    let tally = crash_everywhere(&rt, rt.alloc(), SCRIPT, Tails::WithoutLast)?;
    assert_tally(
        &rt,
        tally,
        tally.shortest > 0 && tally.shortest < tally.open,
    );
    Ok(())
}

#[test]
fn crashes_with_a_wrong_byte(rt: HostRuntime) -> Result<()> {
    let tally = crash_everywhere(&rt, rt.alloc(), SCRIPT, Tails::WrongLogBytes)?;
    assert_tally(
        &rt,
        tally,
        tally.shortest > 0 && tally.shortest < tally.open,
    );
    Ok(())
}

#[test]
fn second_crashes_without_tails(rt: HostRuntime) -> Result<()> {
    let kinds = (Tails::WithoutLast, Tails::Nothing);
    let openings = crash_twice_everywhere(&rt, rt.alloc(), SCRIPT, kinds)?;
    assert!(rt; openings > 100, "{openings}");
    Ok(())
}

#[test]
fn second_crashes_without_the_last_byte(rt: HostRuntime) -> Result<()> {
    let kinds = (Tails::WrongLogBytes, Tails::WithoutLast);
    let openings = crash_twice_everywhere(&rt, rt.alloc(), SCRIPT, kinds)?;
    assert!(rt; openings > 100, "{openings}");
    Ok(())
}

#[test]
fn failures_without_their_change(rt: HostRuntime) -> Result<()> {
    let tally = fail_everywhere(&rt, rt.alloc(), SCRIPT, false)?;
    assert_tally(&rt, tally, tally.shortest > 20 && tally.longest > 20);
    Ok(())
}

#[test]
fn failures_with_their_change(rt: HostRuntime) -> Result<()> {
    let tally = fail_everywhere(&rt, rt.alloc(), SCRIPT, true)?;
    assert_tally(&rt, tally, tally.shortest > 20 && tally.longest > 20);
    Ok(())
}

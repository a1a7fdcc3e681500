//! Sweeps that take minutes each, over every moment, call and change: ./test --long.
use super::by_score::{APART, SCRIPT as BY_SCORE, SHORT as ONE_BY_SCORE};
use super::compactions::{
    IN_LARGE, IN_SMALL, SHORT as COMPACTIONS, leave_whole_stores, run_seeds, sweep_seed,
};
use super::crash_disks::{Script, Tails, assert_tally};
use super::crashes::crash_after_each;
use super::damaged_files::{change_blocks, change_two_puts};
use super::lives::crash_at_each;
use super::program::read_long_inputs;
use super::random_commands::run_first;
use super::sweep::{crash_everywhere, crash_twice_everywhere, fail_everywhere};
use super::switches::{ANEW, REUSING};
use super::twelve_keys::{SCRIPT as TWELVE_KEYS, STEPS};
use super::views::{SCRIPT as VIEWS, walk_over_each_byte};
use leveldb_base::error::Result;
use std::alloc::Global;
use std::io;
use std::process::Abort;

const ALL_TAILS: [Tails; 5] = [
    Tails::Nothing,
    Tails::Whole,
    Tails::WithoutLast,
    Tails::WrongLogBytes,
    Tails::WrongBytes,
];

/// Crashes at each moment, and again at each moment of the openings after it.
fn crash_twice(
    rt: &impl Abort,
    alloc: Global,
    script: Script<'_>,
    kinds: (Tails, Tails),
) -> Result<()> {
    let openings = crash_twice_everywhere(rt, alloc, script, kinds)?;
    assert!(rt; openings > 100, "{openings}");
    Ok(())
}

fn crash_with_all(rt: &impl Abort, alloc: Global, scripts: &[Script<'_>]) -> Result<()> {
    for script in scripts {
        for kind in ALL_TAILS {
            let tally = crash_everywhere(rt, alloc, *script, kind)?;
            assert_tally(rt, tally, tally.crashes > 100 && tally.open > 0);
        }
    }
    Ok(())
}

fn fail_all(rt: &impl Abort, alloc: Global, scripts: &[Script<'_>]) -> Result<()> {
    for script in scripts {
        for done in [false, true] {
            let tally = fail_everywhere(rt, alloc, *script, done)?;
            assert_tally(rt, tally, tally.crashes > 100 && tally.open > 0);
        }
    }
    Ok(())
}

/// A crash after each batch that leaves each prefix of what the log has that isn't durable.
#[test]
fn each_crash_keeps_a_prefix(rt: HostRuntime) -> Result<()> {
    crash_after_each(&rt, rt.alloc(), 1)
}

/// A table and a log, which is used on.
#[test]
fn damage_where_files_are_used_on(rt: HostRuntime) -> Result<()> {
    let counts = change_two_puts(&rt, rt.alloc(), true, 1, 612)?;
    println!(rt; "{counts:?}")?;
    Ok(())
}

/// The opening makes a table of the log, and a new manifest.
#[test]
fn damage_where_no_file_is_used_on(rt: HostRuntime) -> Result<()> {
    let counts = change_two_puts(&rt, rt.alloc(), false, 1, 630)?;
    println!(rt; "{counts:?}")?;
    Ok(())
}

/// Tables of a level, and a log. Each table has a block for each of its keys, or one for all.
#[test]
fn damage_before_a_compaction(rt: HostRuntime) -> Result<()> {
    for block in [1, 4096] {
        let counts = change_blocks(&rt, rt.alloc(), &STEPS[..14], block, 1)?;
        println!(rt; "{counts:?}")?;
    }
    Ok(())
}

/// The table of a compaction.
#[test]
fn damage_after_a_compaction(rt: HostRuntime) -> Result<()> {
    for block in [1, 4096] {
        let counts = change_blocks(&rt, rt.alloc(), STEPS, block, 1)?;
        println!(rt; "{counts:?}")?;
    }
    Ok(())
}

#[test]
fn walks_over_a_damaged_table(rt: HostRuntime) -> Result<()> {
    walk_over_each_byte(&rt, rt.alloc(), 1)
}

/// By `lives` itself: each life runs the script anew, and the next looks at what a crash left.
#[test]
fn crashes_of_lives(rt: HostRuntime) -> Result<()> {
    for after in [false, true] {
        let tally = crash_at_each(&rt, rt.alloc(), TWELVE_KEYS.setting, STEPS, after)?;
        assert_tally(&rt, tally, tally.shortest > 20);
    }
    Ok(())
}

#[test]
fn crashes_of_twelve_keys(rt: HostRuntime) -> Result<()> {
    crash_with_all(&rt, rt.alloc(), &[TWELVE_KEYS])
}

#[test]
fn failures_of_twelve_keys(rt: HostRuntime) -> Result<()> {
    fail_all(&rt, rt.alloc(), &[TWELVE_KEYS])
}

#[test]
fn second_crashes_of_twelve_keys(rt: HostRuntime) -> Result<()> {
    crash_twice(
        &rt,
        rt.alloc(),
        TWELVE_KEYS,
        (Tails::Nothing, Tails::Nothing),
    )
}

#[test]
fn second_crashes_after_whole_tails(rt: HostRuntime) -> Result<()> {
    crash_twice(&rt, rt.alloc(), TWELVE_KEYS, (Tails::Whole, Tails::Nothing))
}

#[test]
fn second_crashes_after_other_tails(rt: HostRuntime) -> Result<()> {
    let kinds = (Tails::WithoutLast, Tails::Nothing);
    crash_twice(&rt, rt.alloc(), TWELVE_KEYS, kinds)?;
    let kinds = (Tails::WrongLogBytes, Tails::WithoutLast);
    crash_twice(&rt, rt.alloc(), TWELVE_KEYS, kinds)
}

#[test]
fn crashes_of_switches(rt: HostRuntime) -> Result<()> {
    crash_with_all(&rt, rt.alloc(), &[REUSING, ANEW])
}

#[test]
fn failures_of_switches(rt: HostRuntime) -> Result<()> {
    fail_all(&rt, rt.alloc(), &[REUSING, ANEW])
}

#[test]
fn second_crashes_of_switches(rt: HostRuntime) -> Result<()> {
    crash_twice(
        &rt,
        rt.alloc(),
        REUSING,
        (Tails::WithoutLast, Tails::Nothing),
    )?;
    crash_twice(&rt, rt.alloc(), REUSING, (Tails::Whole, Tails::WrongBytes))?;
    crash_twice(&rt, rt.alloc(), ANEW, (Tails::Nothing, Tails::WithoutLast))
}

#[test]
fn crashes_of_views(rt: HostRuntime) -> Result<()> {
    crash_with_all(&rt, rt.alloc(), &[VIEWS])
}

#[test]
fn failures_of_views(rt: HostRuntime) -> Result<()> {
    fail_all(&rt, rt.alloc(), &[VIEWS])
}

#[test]
fn crashes_in_compactions(rt: HostRuntime) -> Result<()> {
    crash_with_all(&rt, rt.alloc(), &[IN_LARGE, IN_SMALL])
}

/// Each disk that a crash leaves is a whole store by its definition.
#[test]
fn whole_stores_in_compactions(rt: HostRuntime) -> Result<()> {
    leave_whole_stores(&rt, rt.alloc(), IN_SMALL, Tails::WithoutLast)?;
    leave_whole_stores(&rt, rt.alloc(), IN_LARGE, Tails::Whole)
}

#[test]
fn failures_in_compactions(rt: HostRuntime) -> Result<()> {
    fail_all(&rt, rt.alloc(), &[IN_LARGE, IN_SMALL])
}

#[test]
fn second_crashes_in_compactions(rt: HostRuntime) -> Result<()> {
    let kinds = (Tails::WithoutLast, Tails::Nothing);
    crash_twice(&rt, rt.alloc(), COMPACTIONS, kinds)?;
    crash_twice(
        &rt,
        rt.alloc(),
        COMPACTIONS,
        (Tails::Whole, Tails::WrongBytes),
    )
}

#[test]
fn crashes_in_compactions_by_score(rt: HostRuntime) -> Result<()> {
    crash_with_all(&rt, rt.alloc(), &[ONE_BY_SCORE, BY_SCORE, APART])
}

#[test]
fn second_crashes_in_compactions_by_score(rt: HostRuntime) -> Result<()> {
    crash_twice(&rt, rt.alloc(), BY_SCORE, (Tails::Nothing, Tails::Nothing))?;
    crash_twice(&rt, rt.alloc(), APART, (Tails::Whole, Tails::WithoutLast))
}

#[test]
fn failures_in_compactions_by_score(rt: HostRuntime) -> Result<()> {
    fail_all(&rt, rt.alloc(), &[ONE_BY_SCORE, BY_SCORE, APART])
}

/// Scripts that look random, each with crashes and failures at each of its moments and calls.
#[test]
fn ten_seeds(rt: HostRuntime) -> Result<()> {
    for seed in 100..110 {
        sweep_seed(&rt, rt.alloc(), seed, 12)?;
    }
    Ok(())
}

/// Longer ones, with neither.
#[test]
fn sixty_seeds(rt: HostRuntime) -> Result<()> {
    run_seeds(&rt, rt.alloc(), 60)
}

/// 64 MiB, and more.
#[test]
fn long_inputs(rt: HostRuntime) -> io::Result<()> {
    read_long_inputs(&rt, rt.alloc())
}

#[test]
fn six_thousand_commands(rt: HostRuntime) -> Result<()> {
    run_first(&rt, rt.alloc(), 6000)
}

//! Trials that take minutes, of which short ones are in the modules themselves: ./test --long.
use super::compactions_due::{crash_in_puts, fail_in_puts};
use super::compactions_in_openings::{crash_in_openings, fail_in_openings};
use super::compactions_of_many::try_seeds;
use super::file_bounds::try_scripts;
use super::level_loads::{Load, Order, fullest_of, most_of};
use super::merged_inputs::{crash_in_merge, fail_in_merge};
use super::merging::compare_merges;
use super::open_tables::damage_each;
use super::repairs::{crash_in_repairs, crash_in_second_repairs, fail_in_repairs};
use super::repairs_of_damage::{self, larger_files, shuffle, small_files};
use super::replays::{fail_reads, open_over_short_reads};
use leveldb_base::error::Result;

#[test]
fn twelve_seeds(rt: HostRuntime) -> Result<()> {
    try_seeds(&rt, rt.alloc(), 12)
}

#[test]
fn files_of_two_thousand_scripts(rt: HostRuntime) -> Result<()> {
    let (crashes, failures) = try_scripts(&rt, rt.alloc(), (1000, 2000), false)?;
    assert!(rt; crashes > 2500 && failures > 1000, "{crashes} {failures}");
    println!(rt; "{crashes} crashes, {failures} failures")?;
    Ok(())
}

/// The same where a crash may change a byte that wasn't synced.
#[test]
fn files_of_two_thousand_damaged_scripts(rt: HostRuntime) -> Result<()> {
    let (crashes, failures) = try_scripts(&rt, rt.alloc(), (1000, 2000), true)?;
    assert!(rt; crashes > 2500 && failures > 1000, "{crashes} {failures}");
    println!(rt; "{crashes} crashes, {failures} failures")?;
    Ok(())
}

#[test]
fn merges_beside_the_slow_merge(rt: HostRuntime) -> Result<()> {
    let gone = compare_merges(&rt, rt.alloc(), 400)?;
    assert!(rt; gone > 3000, "{gone} entries went");
    Ok(())
}

#[test]
fn crashes_in_a_merge(rt: HostRuntime) -> Result<()> {
    crash_in_merge(&rt, rt.alloc(), 1)
}

#[test]
fn failures_in_a_merge(rt: HostRuntime) -> Result<()> {
    let failed = fail_in_merge(&rt, rt.alloc(), 1)?;
    assert!(rt; failed > 30, "{failed}");
    Ok(())
}

#[test]
fn logs_over_short_reads(rt: HostRuntime) -> Result<()> {
    open_over_short_reads(&rt, rt.alloc(), 8, 8, 8)
}

#[test]
fn reads_that_fail(rt: HostRuntime) -> Result<()> {
    fail_reads(&rt, rt.alloc(), 1)
}

#[test]
fn each_byte_of_a_table(rt: HostRuntime) -> Result<()> {
    damage_each(&rt, rt.alloc(), 1)
}

#[test]
fn crashes_at_each_moment_of_a_put_that_compacts(rt: HostRuntime) -> Result<()> {
    crash_in_puts(&rt, rt.alloc(), 1)
}

#[test]
fn each_call_of_a_put_that_compacts_fails_once(rt: HostRuntime) -> Result<()> {
    for done in [false, true] {
        let (refused, through) = fail_in_puts(&rt, rt.alloc(), 1, done)?;
        assert!(rt; refused > 3, "{done}: {refused} {through}");
    }
    Ok(())
}

#[test]
fn crashes_at_each_moment_of_an_opening(rt: HostRuntime) -> Result<()> {
    crash_in_openings(&rt, rt.alloc(), 1)
}

#[test]
fn each_call_of_an_opening_fails_once(rt: HostRuntime) -> Result<()> {
    for done in [false, true] {
        let (refused, goes_on) = fail_in_openings(&rt, rt.alloc(), 1, done)?;
        assert!(rt; refused > 6 && goes_on > 10, "{done}: {refused} {goes_on}");
    }
    Ok(())
}

#[test]
fn crashes_at_each_moment_of_a_repair(rt: HostRuntime) -> Result<()> {
    let lost = crash_in_repairs(&rt, rt.alloc(), true, 1)?;
    let there = crash_in_repairs(&rt, rt.alloc(), false, 1)?;
    let second = crash_in_second_repairs(&rt, rt.alloc(), 1)?;
    assert!(rt;
        lost > 300 && there > 300 && second > 80,
        "{lost} {there} {second}"
    );
    println!(rt; "{lost} and {there} crashes, {second} second ones")?;
    Ok(())
}

#[test]
fn each_call_of_a_repair_fails_once(rt: HostRuntime) -> Result<()> {
    let failed = fail_in_repairs(&rt, rt.alloc(), 1)?;
    assert!(rt; failed > 160, "{failed}");
    println!(rt; "{failed} repairs failed")?;
    Ok(())
}

#[test]
fn repairs_after_each_change_of_a_byte(rt: HostRuntime) -> Result<()> {
    let alloc = rt.alloc();
    let small = repairs_of_damage::damage_each(&rt, alloc, &small_files(alloc)?, 1)?;
    let larger = repairs_of_damage::damage_each(&rt, alloc, &larger_files(alloc)?, 1)?;
    assert!(rt; small.1 > 400 && larger.1 > 1000, "{small:?} {larger:?}");
    println!(rt; "folders, and repairs that were Ok: {small:?} {larger:?}")?;
    Ok(())
}

#[test]
fn repairs_of_several_files(rt: HostRuntime) -> Result<()> {
    let count = shuffle(&rt, rt.alloc(), 400)?;
    assert!(rt; count > 300, "{count}");
    println!(rt; "{count} repairs were Ok")?;
    Ok(())
}

/// Loads of some 100 MB each, with the memtable of 4 MiB.
const LOADS: [Load; 9] = [
    Load {
        order: Order::Random,
        puts: 1_000_000,
        value: 100,
        buffer: 4 << 20,
    },
    Load {
        order: Order::Rising,
        puts: 1_000_000,
        value: 100,
        buffer: 4 << 20,
    },
    Load {
        order: Order::Falling,
        puts: 1_000_000,
        value: 100,
        buffer: 4 << 20,
    },
    Load {
        order: Order::Skewed,
        puts: 1_000_000,
        value: 100,
        buffer: 4 << 20,
    },
    Load {
        order: Order::Few,
        puts: 1_000_000,
        value: 100,
        buffer: 4 << 20,
    },
    Load {
        order: Order::Deleting,
        puts: 1_500_000,
        value: 100,
        buffer: 4 << 20,
    },
    Load {
        order: Order::Random,
        puts: 3_000_000,
        value: 10,
        buffer: 4 << 20,
    },
    Load {
        order: Order::Random,
        puts: 2_000,
        value: 100_000,
        buffer: 4 << 20,
    },
    Load {
        order: Order::Random,
        puts: 1_000_000,
        value: 100,
        buffer: 1 << 16,
    },
];

/// No level gets past its limit by more than what comes at once, whatever is put: level 1 may have 2.6 times its limit where values are long, and
/// has twice its limit at most where they are of a hundred bytes.
#[test]
fn levels_of_loads(rt: HostRuntime) -> Result<()> {
    for load in LOADS {
        let most = fullest_of(rt.alloc(), load)?;
        println!(rt; "{load:?}: {most:?}")?;
        assert!(rt; most.0 <= most_of(load), "{load:?}: {most:?}");
        assert!(rt; load.value > 100 || most.0 <= 200, "{load:?}: {most:?}");
    }
    Ok(())
}

/// The same where four memtables have 25 times the limit of level 1.
#[test]
fn levels_of_a_large_memtable(rt: HostRuntime) -> Result<()> {
    let load = Load {
        order: Order::Random,
        puts: 3_000_000,
        value: 100,
        buffer: 64 << 20,
    };
    let most = fullest_of(rt.alloc(), load)?;
    println!(rt; "{load:?}: {most:?}")?;
    assert!(rt; most.0 <= most_of(load), "{most:?}");
    Ok(())
}

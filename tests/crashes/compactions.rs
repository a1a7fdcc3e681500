//! Compactions of a store with small tables on a recording device: crashes and failures come at
//! each moment and call of scripts, some of which look random. Each disk that a crash leaves is a
//! whole store by the definition, and each view that is held stays.
use super::crash_disks::{
    Recorded, Script, Setting, Side, Tails, assert_tally, crash, record, sides_tried,
};
use super::replies::KEYS;
use super::steps::Step;
use super::sweep::{
    crash_everywhere, crash_twice_everywhere, fail_everywhere, is_new, is_possible, nothing_seen,
};
use leveldb_base::cmp::DefaultCmp;
use leveldb_base::error::Result;
use slow_history::Move;
use slow_store::{levels_of, read_store};
use std::alloc::Global;
use std::process::Abort;
use support::Random;

/// Over all pairs, past both ends.
const ALL: &[Move<'static>] = &[
    Move::First,
    Move::Next,
    Move::Next,
    Move::Next,
    Move::Next,
    Move::Next,
    Move::Next,
    Move::Seek(b"c"),
    Move::Prev,
    Move::Prev,
    Move::Prev,
];

/// Two lives of one store, the first closed, the second abandoned. Each begins with a look-up,
/// whose reply shows when its opening returned. Tables go down to level 3; deletions and older
/// values go, but for those that a snapshot needs.
const FIRST: &[Step] = &[
    Step::Get("a"),
    Step::Put("a", "1"),
    Step::Snap,
    Step::Write(true, &[("a", None), ("c", Some("3"))]),
    Step::Compact("", ""),
    Step::GetAt(0, "a"),
    Step::Put("b", "4"),
    Step::Compact("b", "c"),
    Step::Walk(Some(0), ALL),
    Step::Release(0),
    Step::Compact("", ""),
    Step::Walk(None, ALL),
    Step::Close,
    Step::Compact("", ""),
];

const SECOND: &[Step] = &[
    Step::Get("e"),
    Step::Put("d", "5"),
    Step::Snap,
    Step::Write(false, &[("d", None), ("", Some("7"))]),
    Step::Compact("a", "d"),
    Step::Walk(Some(0), ALL),
    Step::Delete("b"),
    Step::Compact("", ""),
    Step::Walk(Some(0), ALL),
    Step::Walk(None, ALL),
];

/// Each key has a table of its own.
const SMALL: Setting = Setting {
    write_buffer_size: 300,
    max_file_size: 1,
    reuses: true,
    keys: 6,
};

const LARGE: Setting = Setting {
    write_buffer_size: 300,
    max_file_size: 2 << 20,
    reuses: true,
    keys: 6,
};

pub const IN_SMALL: Script<'static> = Script {
    setting: SMALL,
    every: 1,
    lives: &[FIRST, SECOND],
};

pub const IN_LARGE: Script<'static> = Script {
    setting: LARGE,
    every: 1,
    lives: &[FIRST, SECOND],
};

/// A compaction that takes two tables, and one that leaves none.
pub const SHORT: Script<'static> = Script {
    setting: LARGE,
    every: 1,
    lives: &[&[
        Step::Put("a", "1"),
        Step::Compact("", ""),
        Step::Write(true, &[("a", None)]),
        Step::Put("b", "2"),
        Step::Compact("", ""),
        Step::Delete("b"),
        Step::Compact("", ""),
    ]],
};

/// A table of each key, of which the second compaction takes none but that in memory.
const APART: Script<'static> = Script {
    setting: LARGE,
    every: 1,
    lives: &[&[
        Step::Put("a", "1"),
        Step::Compact("", ""),
        Step::Put("z", "2"),
        Step::Compact("z", ""),
    ]],
};

/// The levels of the store that a script leaves.
fn left_levels(alloc: Global, script: Script<'_>) -> Result<String> {
    let mut recorded = record(alloc, script)?;
    levels_of(alloc, &mut recorded.env, "db")
}

#[test]
fn levels_in_the_end(rt: HostRuntime) -> Result<()> {
    let levels = left_levels(rt.alloc(), SHORT)?;
    assert!(rt; levels.is_empty(), "{levels}");
    let levels = left_levels(rt.alloc(), APART)?;
    assert!(rt;
        levels.as_str().starts_with("level 2: 2 files, "),
        "{levels}"
    );
    Ok(())
}

/// Whether the disk that a crash leaves on this side is a store by its definition, or none, or the
/// one that was seen last.
fn is_whole(
    alloc: Global,
    recorded: &Recorded,
    side: Side,
    kind: Tails,
    seen: &mut Vec<u8>,
) -> Result<bool> {
    let mut left = crash(alloc, &recorded.env, side, kind)?;
    Ok(!is_new(alloc, &mut left, seen)? || read_store(alloc, &mut left, &DefaultCmp, "db").is_ok())
}

/// Each disk that a crash leaves is a whole store.
pub fn leave_whole_stores(
    rt: &impl Abort,
    alloc: Global,
    script: Script<'_>,
    kind: Tails,
) -> Result<()> {
    let recorded = record(alloc, script)?;
    let mut seen = nothing_seen(alloc)?;
    for moment in 0..=recorded.env.moment() {
        for side in &sides_tried(alloc, &recorded, moment, kind)? {
            let is_right = is_whole(alloc, &recorded, *side, kind, &mut seen)?;
            assert!(rt; is_right, "{side:?}");
        }
    }
    Ok(())
}

#[test]
fn whole_stores(rt: HostRuntime) -> Result<()> {
    leave_whole_stores(&rt, rt.alloc(), IN_SMALL.one_of(13), Tails::WithoutLast)?;
    leave_whole_stores(&rt, rt.alloc(), IN_LARGE.one_of(5), Tails::Whole)
}

#[test]
fn crashes_without_tails(rt: HostRuntime) -> Result<()> {
    let tally = crash_everywhere(&rt, rt.alloc(), IN_SMALL.one_of(15), Tails::Nothing)?;
    assert_tally(&rt, tally, tally.shortest > 0);
    Ok(())
}

#[test]
fn crashes_with_whole_tails(rt: HostRuntime) -> Result<()> {
    let tally = crash_everywhere(&rt, rt.alloc(), IN_LARGE.one_of(11), Tails::Whole)?;
    assert_tally(&rt, tally, tally.longest > 0);
    Ok(())
}

#[test]
fn crashes_with_wrong_bytes(rt: HostRuntime) -> Result<()> {
    let tally = crash_everywhere(&rt, rt.alloc(), IN_LARGE.one_of(11), Tails::WrongBytes)?;
    assert_tally(&rt, tally, tally.open > 0);
    Ok(())
}

#[test]
fn second_crashes(rt: HostRuntime) -> Result<()> {
    let kinds = (Tails::WithoutLast, Tails::Nothing);
    let openings = crash_twice_everywhere(&rt, rt.alloc(), SHORT.one_of(15), kinds)?;
    assert!(rt; openings > 20, "{openings}");
    Ok(())
}

#[test]
fn second_crashes_with_wrong_bytes(rt: HostRuntime) -> Result<()> {
    let kinds = (Tails::Whole, Tails::WrongBytes);
    let openings = crash_twice_everywhere(&rt, rt.alloc(), SHORT.one_of(15), kinds)?;
    assert!(rt; openings > 20, "{openings}");
    Ok(())
}

#[test]
fn failures_without_their_change(rt: HostRuntime) -> Result<()> {
    let tally = fail_everywhere(&rt, rt.alloc(), IN_SMALL.one_of(51), false)?;
    assert_tally(&rt, tally, tally.open > 0);
    Ok(())
}

#[test]
fn failures_with_their_change(rt: HostRuntime) -> Result<()> {
    let tally = fail_everywhere(&rt, rt.alloc(), IN_LARGE.one_of(27), true)?;
    assert_tally(&rt, tally, tally.open > 0);
    Ok(())
}

const VALUES: [&str; 10] = ["0", "1", "2", "3", "4", "5", "6", "7", "8", ""];

const BATCHES: [&[(&str, Option<&str>)]; 5] = [
    &[("a", None), ("b", Some("x"))],
    &[("", Some("y")), ("e", None), ("c", Some("z"))],
    &[("d", Some("1")), ("d", None)],
    &[("d", None), ("d", Some("2"))],
    &[],
];

/// An index below this one.
fn any_index(random: &mut Random, count: usize) -> usize {
    random.below(count as u64) as usize
}

/// A step that looks random, after this many snapshots.
fn any_step(random: &mut Random, taken: usize) -> Step {
    let key = KEYS[any_index(random, 6)];
    let at = match random.below(2) {
        0 if taken > 0 => Some(any_index(random, taken)),
        _ => None,
    };
    match random.below(16) {
        0..=3 => Step::Put(key, VALUES[any_index(random, 10)]),
        4..=5 => Step::Delete(key),
        6 => Step::Write(random.below(2) == 0, BATCHES[any_index(random, 5)]),
        7 => Step::Snap,
        8 if taken > 0 => Step::Release(any_index(random, taken)),
        9..=10 => Step::Walk(at, ALL),
        11 => Step::Flush,
        12..=13 => Step::Compact("", ""),
        14 => Step::Compact(key, KEYS[any_index(random, 6)]),
        _ => Step::Get(key),
    }
}

/// A life of steps that look random. It begins with a look-up, whose reply shows when its opening
/// returned.
fn any_life(alloc: Global, random: &mut Random, count: usize) -> Result<Vec<Step>> {
    let mut steps = Vec::new(alloc);
    steps.push(Step::Get("a"))?;
    let mut taken = 0;
    for _ in 0..count {
        let step = any_step(random, taken);
        if matches!(step, Step::Snap) {
            taken += 1;
        }
        steps.push(step)?;
    }
    steps.push(Step::Walk(None, ALL))?;
    Ok(steps)
}

/// How a script that looks random is tried.
#[derive(Clone, Copy)]
enum Trial {
    Run,
    Crashes(Tails),
    Failures(bool),
}

fn try_script(rt: &impl Abort, alloc: Global, script: Script<'_>, trial: Trial) -> Result<()> {
    match trial {
        Trial::Run => {
            let recorded = record(alloc, script)?;
            assert!(rt; is_possible(alloc, &recorded)?);
        }
        Trial::Crashes(kind) => {
            crash_everywhere(rt, alloc, script, kind)?;
            leave_whole_stores(rt, alloc, script, kind)?;
        }
        Trial::Failures(done) => {
            fail_everywhere(rt, alloc, script, done)?;
        }
    }
    Ok(())
}

/// Tries a script of two lives that looks random, one of so many of its moments or calls.
fn try_any(
    rt: &impl Abort,
    alloc: Global,
    seed: u64,
    count: usize,
    every: u64,
    trial: Trial,
) -> Result<()> {
    let mut random = Random(seed);
    let first = any_life(alloc, &mut random, count)?;
    let second = any_life(alloc, &mut random, count / 2)?;
    let lives = [first.as_slice(), second.as_slice()];
    let script = Script {
        setting: setting_of(seed),
        every,
        lives: &lives,
    };
    try_script(rt, alloc, script, trial)
}

/// What a script of this seed is run with: small tables or large ones, logs that are used on or
/// not.
fn setting_of(seed: u64) -> Setting {
    Setting {
        write_buffer_size: if seed % 3 == 0 { 1 } else { 300 },
        max_file_size: if seed % 2 == 0 { 1 } else { 2 << 20 },
        reuses: seed % 4 < 2,
        keys: 6,
    }
}

/// Sweeps the script of this seed: a crash at each moment without tails, and with whole ones, and
/// each call failing, its change made or not.
pub fn sweep_seed(rt: &impl Abort, alloc: Global, seed: u64, count: usize) -> Result<()> {
    let trials = [
        Trial::Crashes(Tails::Nothing),
        Trial::Crashes(Tails::Whole),
        Trial::Failures(false),
        Trial::Failures(true),
    ];
    for trial in trials {
        try_any(rt, alloc, seed, count, 1, trial)?;
    }
    Ok(())
}

/// Runs the scripts of this many seeds.
pub fn run_seeds(rt: &impl Abort, alloc: Global, seeds: u64) -> Result<()> {
    for seed in 0..seeds {
        try_any(rt, alloc, seed, 60, 1, Trial::Run)?;
    }
    Ok(())
}

#[test]
fn random_runs(rt: HostRuntime) -> Result<()> {
    run_seeds(&rt, rt.alloc(), 12)
}

#[test]
fn random_crashes(rt: HostRuntime) -> Result<()> {
    for seed in 0..4 {
        let kind = if seed % 4 < 2 {
            Tails::Nothing
        } else {
            Tails::Whole
        };
        try_any(&rt, rt.alloc(), seed, 10, 13, Trial::Crashes(kind))?;
    }
    Ok(())
}

#[test]
fn random_failures(rt: HostRuntime) -> Result<()> {
    for seed in 4..7 {
        let trial = Trial::Failures(seed % 4 < 2);
        try_any(&rt, rt.alloc(), seed, 10, 17, trial)?;
    }
    Ok(())
}

//! A script on a recording device: a crash at each of its moments, a second one at each moment of
//! the reopening, and each call of the device failing once. What is found is what the slow store
//! allows.
use super::crash_disks::{
    Recorded, Script, Setting, Side, Tails, Tally, bytes_on, calls_by, crash, find_all, judge_all,
    judge_crash, options_of, pass_on_memory, record, record_on, sides_of, sides_tried,
};
use super::read_alone::{find_alone, find_both, is_read_alone};
use super::replies::{are_same, is_any_map};
use super::steps::{Call, Step};
use leveldb_base::cmp::DefaultCmp;
use leveldb_base::error::{Result, StatusCode};
use leveldb_disks::mem_env::RecordEnv;
use rusty_leveldb::db_impl::Engine;
use rusty_leveldb::shell::{Reply, Step as ShellStep};
use slow_history::BorrowedPair;
use slow_machine::SlowStore;
use std::alloc::Global;
use std::process::Abort;

/// Bytes that no disk has, since no name has a slash.
pub fn nothing_seen(alloc: Global) -> Result<Vec<u8>> {
    Ok(Vec::from_slice(alloc, b"/")?)
}

/// Whether this disk isn't the one that was seen last, which it is then.
pub fn is_new(alloc: Global, disk: &mut RecordEnv, seen: &mut Vec<u8>) -> Result<bool> {
    let bytes = bytes_on(alloc, disk)?;
    let is_new = bytes != *seen;
    *seen = bytes;
    Ok(is_new)
}

/// The disk that was looked at last, and what was found on it.
#[derive(Drop)]
struct Looked {
    disk: Vec<u8>,
    found: Vec<Reply>,
}

/// Looks up all keys on this disk, if it isn't the one that was looked at last, and returns whether
/// it opened the store for that.
fn look(
    rt: &impl Abort,
    alloc: Global,
    disk: &mut RecordEnv,
    setting: Setting,
    is_alone: bool,
    looked: &mut Looked,
) -> Result<bool> {
    let is_new = is_new(alloc, disk, &mut looked.disk)?;
    if is_new {
        looked.found = find_both(rt, alloc, disk, setting, is_alone)?;
    }
    Ok(is_new)
}

/// Crashes on this side of a moment: one of these maps is found.
fn crash_on(
    rt: &impl Abort,
    alloc: Global,
    recorded: &Recorded,
    side: Side,
    kind: Tails,
    maps: &[Vec<BorrowedPair<'_>>],
    looked: &mut Looked,
    tally: &mut Tally,
) -> Result<()> {
    let mut left = crash(alloc, &recorded.env, side, kind)?;
    let is_alone = is_read_alone(recorded.every, side.moment);
    let is_opened = look(rt, alloc, &mut left, recorded.setting, is_alone, looked)?;
    tally.openings = tally.openings.saturating_add(usize::from(is_opened));
    assert!(rt; tally.count(maps, &looked.found), "{side:?}, {kind:?}");
    Ok(())
}

/// Crashes on each side of this moment: one of the maps of this slow store is found.
fn crash_at(
    rt: &impl Abort,
    alloc: Global,
    recorded: &Recorded,
    slow: &SlowStore,
    moment: u64,
    kind: Tails,
    looked: &mut Looked,
    tally: &mut Tally,
) -> Result<()> {
    let sides = sides_tried(alloc, recorded, moment, kind)?;
    if sides.is_empty() {
        return Ok(());
    }
    let maps = slow.maps(&DefaultCmp)?;
    for side in &sides {
        crash_on(rt, alloc, recorded, *side, kind, &maps, looked, tally)?;
    }
    Ok(())
}

/// Nothing was looked at so far.
fn nothing_looked_at(alloc: Global) -> Result<Looked> {
    Ok(Looked {
        disk: nothing_seen(alloc)?,
        found: Vec::new(alloc),
    })
}

/// Crashes at each moment of a script.
pub fn crash_everywhere(
    rt: &impl Abort,
    alloc: Global,
    script: Script<'_>,
    kind: Tails,
) -> Result<Tally> {
    let recorded = record(alloc, script)?;
    assert!(rt; is_possible(alloc, &recorded)?);
    pass_on_memory(&recorded)?;
    let mut tally = Tally::new();
    let mut looked = nothing_looked_at(alloc)?;
    let mut slow = judge_crash(alloc, &recorded.calls, 0)?;
    let mut place = calls_by(&recorded.calls, 0);
    for moment in 0..=recorded.env.moment() {
        // The slow store is the same at all moments between two calls.
        if calls_by(&recorded.calls, moment) != place {
            place = calls_by(&recorded.calls, moment);
            slow = judge_crash(alloc, &recorded.calls, moment)?;
        }
        crash_at(
            rt,
            alloc,
            &recorded,
            &slow,
            moment,
            kind,
            &mut looked,
            &mut tally,
        )?;
    }
    Ok(tally)
}

/// A reopening after a crash, from this moment on, and what was found.
#[derive(Drop)]
struct Reopened {
    setting: Setting,
    every: u64,
    env: RecordEnv,
    start: u64,
    found: Vec<Reply>,
}

/// Crashes again: what the first crash left is durable, so the same map is found. Returns how often
/// the store was opened for that.
fn crash_again_on(
    rt: &impl Abort,
    alloc: Global,
    reopened: &Reopened,
    side: Side,
    kind: Tails,
    seen: &mut Vec<u8>,
) -> Result<usize> {
    let mut left = crash(alloc, &reopened.env, side, kind)?;
    if !is_new(alloc, &mut left, seen)? {
        return Ok(0);
    }
    let is_alone = is_read_alone(reopened.every, side.moment);
    let found = find_both(rt, alloc, &mut left, reopened.setting, is_alone)?;
    assert!(rt; are_same(&reopened.found, &found), "{side:?}, {kind:?}");
    Ok(1)
}

/// Crashes again on each side of this moment.
fn crash_again_at(
    rt: &impl Abort,
    alloc: Global,
    reopened: &Reopened,
    moment: u64,
    kind: Tails,
    seen: &mut Vec<u8>,
) -> Result<usize> {
    let mut openings = 0;
    for side in &sides_of(alloc, moment)? {
        openings += crash_again_on(rt, alloc, reopened, *side, kind, seen)?;
    }
    Ok(openings)
}

/// Crashes again at each moment of a reopening.
fn crash_again(rt: &impl Abort, alloc: Global, reopened: &Reopened, kind: Tails) -> Result<usize> {
    let mut seen = nothing_seen(alloc)?;
    let mut openings = 0;
    for moment in reopened.start..=reopened.env.moment() {
        openings += crash_again_at(rt, alloc, reopened, moment, kind, &mut seen)?;
    }
    Ok(openings)
}

/// Opens the store on this disk, where this was found before.
fn reopen_found(
    alloc: Global,
    mut env: RecordEnv,
    recorded: &Recorded,
    found: Vec<Reply>,
) -> Result<Reopened> {
    let setting = recorded.setting;
    let start = env.moment();
    Engine::open(alloc, "db", &mut env, options_of(setting))?.abandon(&mut env)?;
    Ok(Reopened {
        setting,
        every: recorded.every,
        env,
        start,
        found,
    })
}

/// A crash on this side of a moment, and, if it leaves another disk than the last one, a second
/// crash at each moment of the reopening.
fn crash_twice_on(
    rt: &impl Abort,
    alloc: Global,
    recorded: &Recorded,
    side: Side,
    kinds: (Tails, Tails),
    seen: &mut Vec<u8>,
) -> Result<usize> {
    let mut env = crash(alloc, &recorded.env, side, kinds.0)?;
    if !is_new(alloc, &mut env, seen)? {
        return Ok(0);
    }
    let mut left = crash(alloc, &recorded.env, side, kinds.0)?;
    let is_alone = is_read_alone(recorded.every, side.moment);
    let found = find_both(rt, alloc, &mut left, recorded.setting, is_alone)?;
    let reopened = reopen_found(alloc, env, recorded, found)?;
    crash_again(rt, alloc, &reopened, kinds.1)
}

/// Crashes twice on each side of this moment.
fn crash_twice_at(
    rt: &impl Abort,
    alloc: Global,
    recorded: &Recorded,
    moment: u64,
    kinds: (Tails, Tails),
    seen: &mut Vec<u8>,
) -> Result<usize> {
    let mut openings = 0;
    for side in &sides_tried(alloc, recorded, moment, kinds.0)? {
        openings += crash_twice_on(rt, alloc, recorded, *side, kinds, seen)?;
    }
    Ok(openings)
}

/// Crashes at each moment of a script, and again at each moment of the reopening. Returns how often
/// the store was opened after a second crash.
pub fn crash_twice_everywhere(
    rt: &impl Abort,
    alloc: Global,
    script: Script<'_>,
    kinds: (Tails, Tails),
) -> Result<usize> {
    let recorded = record(alloc, script)?;
    let mut seen = nothing_seen(alloc)?;
    let mut openings = 0;
    for moment in 0..=recorded.env.moment() {
        openings += crash_twice_at(rt, alloc, &recorded, moment, kinds, &mut seen)?;
    }
    Ok(openings)
}

/// Whether each move that failed has a cause: the device, or memory.
fn have_move_causes(steps: &[ShellStep]) -> bool {
    for led in steps {
        if let ShellStep::Refused(status) = led
            && !matches!(status.code, StatusCode::IOError | StatusCode::OutOfMemory)
        {
            return false;
        }
    }
    true
}

/// Whether a call that failed has a cause: the device, memory, a closed store, a snapshot that
/// isn't held, or a lock that an earlier life couldn't give back.
fn has_cause(call: &Call) -> bool {
    let status = match &call.reply {
        Reply::Refused(status) => status,
        Reply::Walk(steps) => return have_move_causes(steps),
        _ => return true,
    };
    match status.code {
        StatusCode::IOError | StatusCode::OutOfMemory => true,
        StatusCode::InvalidArgument => !matches!(call.step, Step::Open),
        StatusCode::LockError => matches!(call.step, Step::Open),
        _ => false,
    }
}

/// Whether each call that failed has a cause.
pub fn have_causes(calls: &[Call]) -> bool {
    for call in calls {
        if !has_cause(call) {
            return false;
        }
    }
    true
}

fn crash_at_the_end(
    rt: &impl Abort,
    alloc: Global,
    recorded: &Recorded,
    kind: Tails,
    tally: &mut Tally,
) -> Result<()> {
    let moment = recorded.env.moment();
    let slow = judge_crash(alloc, &recorded.calls, moment)?;
    let maps = slow.maps(&DefaultCmp)?;
    let after = false;
    let side = Side { moment, after };
    let mut looked = nothing_looked_at(alloc)?;
    crash_on(rt, alloc, recorded, side, kind, &maps, &mut looked, tally)
}

/// Opens the store again as it was left: it shows an allowed map, or it is still locked, since the
/// lock couldn't be given back.
fn reopen_at_the_end(rt: &impl Abort, alloc: Global, recorded: &mut Recorded) -> Result<()> {
    let mut slow = judge_all(alloc, &recorded.calls)?;
    slow.opened()?;
    let maps = slow.maps(&DefaultCmp)?;
    let alone = find_alone(rt, alloc, &mut recorded.env, recorded.setting)?;
    let is_right = match find_all(alloc, &mut recorded.env, recorded.setting) {
        Ok(found) => {
            is_any_map(&maps, &found) && alone.is_none_or(|alone| are_same(&alone, &found))
        }
        Err(status) => status.code == StatusCode::LockError,
    };
    assert!(rt; is_right);
    Ok(())
}

/// Runs a script with one call of the device failing.
fn record_failing(alloc: Global, script: Script<'_>, nth: u64, done: bool) -> Result<Recorded> {
    let mut env = RecordEnv::new(alloc);
    env.fail(nth, done);
    record_on(alloc, env, script)
}

/// Whether the slow store allows all that was returned.
pub fn is_possible(alloc: Global, recorded: &Recorded) -> Result<bool> {
    Ok(judge_all(alloc, &recorded.calls)?.is_possible())
}

/// A script with one call of the device failing, and then a crash, or a reopening.
fn fail_once(
    rt: &impl Abort,
    alloc: Global,
    script: Script<'_>,
    nth: u64,
    done: bool,
    tally: &mut Tally,
) -> Result<()> {
    let mut recorded = record_failing(alloc, script, nth, done)?;
    let is_right = is_possible(alloc, &recorded)? && have_causes(&recorded.calls);
    assert!(rt; is_right, "call {nth}, {done}");
    pass_on_memory(&recorded)?;
    crash_at_the_end(rt, alloc, &recorded, Tails::Nothing, tally)?;
    crash_at_the_end(rt, alloc, &recorded, Tails::Whole, tally)?;
    reopen_at_the_end(rt, alloc, &mut recorded)
}

/// A script with each call of the device failing once, its change made or not.
pub fn fail_everywhere(
    rt: &impl Abort,
    alloc: Global,
    script: Script<'_>,
    done: bool,
) -> Result<Tally> {
    let calls = record(alloc, script)?.env.moment() / 2;
    let mut tally = Tally::new();
    for nth in 1..=calls {
        if (nth + u64::from(done)) % script.every == 0 {
            fail_once(rt, alloc, script, nth, done, &mut tally)?;
        }
    }
    Ok(tally)
}

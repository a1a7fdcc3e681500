//! Lives of a store with a crash after each, reported by `lives`.
use super::crash_disks::{
    DEFAULTS, Setting, Side, Tally, add_calls, assert_tally, judge_crash, options_of,
};
use super::replies::{bytes_of, look_ups};
use super::steps::{Call, Step, commands_of};
use leveldb_base::cmp::DefaultCmp;
use leveldb_base::error::{Result, StatusCode};
use leveldb_env::filter::BloomPolicy;
use leveldb_env::mem_env::Pick;
use rusty_leveldb::shell::{Command, Life, Reply, Report, lives};
use std::alloc::Global;
use std::process::Abort;
use support::failed_with;

/// It begins with a look-up, whose reply shows when the opening returned.
const STEPS: [Step; 8] = [
    Step::Get("a"),
    Step::Put("a", "1"),
    Step::Write(true, &[("b", Some("2")), ("c", Some("3"))]),
    Step::Delete("b"),
    Step::Put("d", "4"),
    Step::Flush,
    Step::Write(false, &[("c", None), ("", Some("5"))]),
    Step::Close,
];

type DefaultLife = Life<DefaultCmp, BloomPolicy>;

/// A life of these commands, and a crash at its end, if there is one, on this side, that leaves
/// nothing but what is durable.
fn life_of(
    alloc: Global,
    setting: Setting,
    commands: Vec<Command>,
    crash: Option<Side>,
    fail: Option<(u64, bool)>,
) -> DefaultLife {
    Life {
        options: options_of(setting),
        commands,
        moment: crash.map(|side| side.moment),
        pick: Pick {
            tails: Vec::new(alloc),
            after: crash.is_some_and(|side| side.after),
        },
        fail,
    }
}

/// The same with the defaults, where no name change in flight is made.
fn life(
    alloc: Global,
    commands: Vec<Command>,
    moment: Option<u64>,
    fail: Option<(u64, bool)>,
) -> DefaultLife {
    let after = false;
    let crash = moment.map(|moment| Side { moment, after });
    life_of(alloc, DEFAULTS, commands, crash, fail)
}

/// The steps with a crash on this side of a moment, and then a look-up of each key.
fn crash_and_look_at(
    alloc: Global,
    setting: Setting,
    steps: &[Step],
    crash: Side,
) -> Result<Vec<Report>> {
    let mut all = Vec::new(alloc);
    let commands = commands_of(alloc, steps)?;
    all.push(life_of(alloc, setting, commands, Some(crash), None))?;
    let commands = look_ups(alloc, setting.keys)?;
    all.push(life_of(alloc, setting, commands, None, None))?;
    lives(alloc, "db", all)
}

fn crash_and_look(alloc: Global, moment: u64) -> Result<Vec<Report>> {
    let after = false;
    crash_and_look_at(alloc, DEFAULTS, &STEPS, Side { moment, after })
}

fn replies_of(alloc: Global, report: Report) -> Result<Vec<Reply>> {
    report.opened?;
    let mut replies = Vec::new(alloc);
    for (_, reply) in report.replies {
        replies.push(reply)?;
    }
    Ok(replies)
}

/// Whether the second report is of a map that the slow store allows after the first and a crash at
/// this moment.
fn is_allowed(
    alloc: Global,
    steps: &[Step],
    mut reports: Vec<Report>,
    moment: u64,
    tally: &mut Tally,
) -> Result<bool> {
    let (Some(second), Some(first)) = (reports.pop(), reports.pop()) else {
        return Ok(false);
    };
    let mut calls: Vec<Call> = Vec::new(alloc);
    add_calls(&mut calls, first, 0, u64::MAX, steps)?;
    let slow = judge_crash(alloc, &calls, moment)?;
    let found = replies_of(alloc, second)?;
    Ok(tally.count(&slow.maps(&DefaultCmp)?, &found))
}

/// How many moments the life of these steps has, up to its last reply.
fn last_moment(alloc: Global, setting: Setting, steps: &[Step]) -> Result<u64> {
    let mut all = Vec::new(alloc);
    let commands = commands_of(alloc, steps)?;
    all.push(life_of(alloc, setting, commands, None, None))?;
    let reports = lives(alloc, "db", all)?;
    let last = reports.first().and_then(|report| report.replies.last());
    Ok(last.map_or(0, |reply| reply.0))
}

/// Crashes at each moment of the life of these steps, on one side of the name changes in flight.
pub fn crash_at_each(
    rt: &impl Abort,
    alloc: Global,
    setting: Setting,
    steps: &[Step],
    after: bool,
) -> Result<Tally> {
    let mut tally = Tally::new();
    for moment in 0..=last_moment(alloc, setting, steps)? {
        let reports = crash_and_look_at(alloc, setting, steps, Side { moment, after })?;
        assert!(rt;
            is_allowed(alloc, steps, reports, moment, &mut tally)?,
            "at {moment}"
        );
    }
    Ok(tally)
}

/// Where a batch may be lost, it is, but at the two moments of the close that come after its sync.
#[test]
fn a_crash_at_each_moment(rt: HostRuntime) -> Result<()> {
    let tally = crash_at_each(&rt, rt.alloc(), DEFAULTS, &STEPS, false)?;
    let kept = tally.open.saturating_sub(tally.shortest);
    assert_tally(
        &rt,
        tally,
        tally.open > 5 && kept == 2 && tally.longest == 2,
    );
    Ok(())
}

/// The life ends with its last call, since `abandon` finds the store closed: no crash comes later.
#[test]
fn a_moment_to_come(rt: HostRuntime) -> Result<()> {
    let last = last_moment(rt.alloc(), DEFAULTS, &STEPS)?;
    assert!(rt; crash_and_look(rt.alloc(), last).is_ok());
    let later = crash_and_look(rt.alloc(), last.saturating_add(1));
    assert!(rt; failed_with(later, StatusCode::InvalidArgument)?);
    Ok(())
}

/// A synced write whose sync fails: its batch isn't found, the store is broken, and a crash without
/// tails loses all.
const FAILING: [Step; 4] = [
    Step::Put("a", "1"),
    Step::Write(true, &[("b", Some("2"))]),
    Step::Get("b"),
    Step::Put("c", "3"),
];

fn is_refusal(reply: &Reply, wanted: StatusCode) -> bool {
    matches!(reply, Reply::Refused(status) if status.code == wanted)
}

/// What these steps reply where the call of this number fails, and what a look-up of a then
/// replies, after a crash at once.
fn fail_and_look(alloc: Global, moment: u64, nth: u64) -> Result<Vec<Report>> {
    let mut all = Vec::new(alloc);
    all.push(life(
        alloc,
        commands_of(alloc, &FAILING)?,
        Some(moment),
        Some((nth, false)),
    ))?;
    let mut commands = Vec::new(alloc);
    commands.push(Command::Get(bytes_of(alloc, "a")?))?;
    all.push(life(alloc, commands, None, None))?;
    lives(alloc, "db", all)
}

/// Whether the sync failed and broke the store, and its batch isn't found.
fn are_of_a_failed_sync(replies: &[Reply]) -> bool {
    match replies {
        [Reply::Done, write, Reply::Nothing, put] => {
            is_refusal(write, StatusCode::IOError) && is_refusal(put, StatusCode::IOError)
        }
        _ => false,
    }
}

fn is_all_lost(alloc: Global, mut reports: Vec<Report>) -> Result<bool> {
    let (Some(second), Some(first)) = (reports.pop(), reports.pop()) else {
        return Ok(false);
    };
    let first = replies_of(alloc, first)?;
    let second = replies_of(alloc, second)?;
    Ok(are_of_a_failed_sync(&first) && matches!(second.as_slice(), [Reply::Nothing]))
}

/// The number of the sync's call: those before it open the store, and two are appends.
fn sync_call(alloc: Global) -> Result<u64> {
    let mut all = Vec::new(alloc);
    all.push(life(alloc, commands_of(alloc, &FAILING)?, None, None))?;
    let reports = lives(alloc, "db", all)?;
    let first = reports.first().and_then(|report| report.replies.first());
    Ok(first.map_or(0, |reply| (reply.0 / 2).saturating_add(2)))
}

#[test]
fn a_failed_sync_and_a_crash(rt: HostRuntime) -> Result<()> {
    let nth = sync_call(rt.alloc())?;
    let reports = fail_and_look(rt.alloc(), nth.saturating_mul(2), nth)?;
    assert!(rt; is_all_lost(rt.alloc(), reports)?);
    Ok(())
}

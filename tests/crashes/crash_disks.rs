//! Crashes of a recording device: which tails they leave, and what is then found and allowed.
use super::replies::{is_any_map, is_map, look_ups};
use super::steps::{Call, Step, commands_of, crash_inside, judge};
use leveldb_base::cmp::DefaultCmp;
use leveldb_base::error::{Result, Status, StatusCode};
use leveldb_disks::mem_env::{Pick, RecordEnv};
use leveldb_env::env::Env;
use leveldb_env::env::whole_files::read_file;
use leveldb_env::filter::BloomPolicy;
use leveldb_env::options::Options;
use rusty_leveldb::shell::{Reply, Report, Step as ShellStep, live, run};
use slow_history::BorrowedPair;
use slow_machine::SlowStore;
use std::alloc::{AllocError, Global};
use std::process::Abort;

/// What a store is opened with that differs from the defaults.
#[derive(Clone, Copy)]
pub struct Setting {
    pub write_buffer_size: usize,
    pub max_file_size: usize,
    /// Whether the last log and the manifest are used on.
    pub reuses: bool,
    /// How many of the keys are written, and looked up to find the store's map.
    pub keys: usize,
}

/// The defaults: a store of these tests has one log then.
pub const DEFAULTS: Setting = Setting {
    write_buffer_size: 4 << 20,
    max_file_size: 2 << 20,
    reuses: true,
    keys: 6,
};

pub fn options_of(setting: Setting) -> Options<DefaultCmp, BloomPolicy> {
    let mut options = Options::default();
    options.write_buffer_size = setting.write_buffer_size;
    options.max_file_size = setting.max_file_size;
    options.reuse_logs = setting.reuses;
    options.reuse_manifest = setting.reuses;
    options
}

/// Lives of one store, one after another, and what it is opened with.
#[derive(Clone, Copy)]
pub struct Script<'a> {
    pub setting: Setting,
    /// A sweep tries one of so many of its moments and calls.
    pub every: u64,
    pub lives: &'a [&'a [Step]],
}

impl<'a> Script<'a> {
    /// The same, of whose moments and calls a sweep tries one of so many.
    pub fn one_of(self, every: u64) -> Script<'a> {
        Script {
            setting: self.setting,
            every,
            lives: self.lives,
        }
    }
}

/// The device and the calls of a script that was run.
#[derive(Drop)]
pub struct Recorded {
    pub setting: Setting,
    pub every: u64,
    pub env: RecordEnv,
    pub calls: Vec<Call>,
}

/// A moment, and whether a name change in flight is made.
#[derive(Clone, Copy, Debug)]
pub struct Side {
    pub moment: u64,
    pub after: bool,
}

/// What a crash leaves of the bytes that aren't durable.
#[derive(Clone, Copy, Debug)]
pub enum Tails {
    Nothing,
    Whole,
    /// Of each file all but the last byte.
    WithoutLast,
    /// All, but the last byte of each log is one higher.
    WrongLogBytes,
    /// All, but the last byte of each file is one higher.
    WrongBytes,
}

fn raise_last(bytes: &mut Vec<u8>) {
    if let Some(last) = bytes.last_mut() {
        *last = last.wrapping_add(1);
    }
}

fn change_tails(tails: &mut Vec<(String, Vec<u8>)>, kind: Tails) {
    for (name, bytes) in tails.iter_mut() {
        match kind {
            Tails::WithoutLast => drop(bytes.pop()),
            Tails::WrongLogBytes if name.as_str().ends_with(".log") => raise_last(bytes),
            Tails::WrongBytes => raise_last(bytes),
            _ => {}
        }
    }
}

/// The disk that a crash leaves.
pub fn crash(alloc: Global, env: &RecordEnv, side: Side, kind: Tails) -> Result<RecordEnv> {
    let after = side.after;
    let mut tails = Vec::new(alloc);
    if !matches!(kind, Tails::Nothing) {
        tails = env.tails(alloc, side.moment, after)?;
        change_tails(&mut tails, kind);
    }
    env.disk_at(alloc, side.moment, &Pick { tails, after })
}

/// The sides of a moment: a name change may be in flight inside a call alone.
pub fn sides_of(alloc: Global, moment: u64) -> Result<Vec<Side>> {
    let mut sides = Vec::new(alloc);
    sides.push(Side {
        moment,
        after: false,
    })?;
    if moment % 2 == 1 {
        sides.push(Side {
            moment,
            after: true,
        })?;
    }
    Ok(sides)
}

/// By how much the moments that are tried with this kind of tails are later than those of the first
/// kind, so that all kinds try all of them.
fn shift_of(kind: Tails) -> u64 {
    match kind {
        Tails::Nothing => 0,
        Tails::Whole => 1,
        Tails::WithoutLast => 2,
        Tails::WrongLogBytes => 3,
        Tails::WrongBytes => 4,
    }
}

/// The sides of a moment that a sweep tries with this kind of tails.
pub fn sides_tried(
    alloc: Global,
    recorded: &Recorded,
    moment: u64,
    kind: Tails,
) -> Result<Vec<Side>> {
    let mut tried = Vec::new(alloc);
    for side in &sides_of(alloc, moment)? {
        let number = moment * 2 + u64::from(side.after) + shift_of(kind);
        if number % recorded.every == 0 {
            tried.push(*side)?;
        }
    }
    Ok(tried)
}

fn add_file(alloc: Global, env: &mut RecordEnv, name: &str, all: &mut Vec<u8>) -> Result<()> {
    let path = format!(in alloc; "db/{name}")?;
    let bytes = read_file(alloc, env, &path)?;
    let head = format!(in alloc; "{name} {} ", bytes.len())?;
    all.extend_from_slice(head.as_bytes())?;
    all.extend_from_slice(&bytes)?;
    Ok(())
}

/// All names of the store's folder, each with its file's bytes.
pub fn bytes_on(alloc: Global, env: &mut RecordEnv) -> Result<Vec<u8>> {
    let mut all = Vec::new(alloc);
    for name in &env.children(alloc, "db")? {
        add_file(alloc, env, name, &mut all)?;
    }
    Ok(all)
}

/// Out of memory, if this is that.
fn check_status(status: &Status) -> Result<()> {
    match status.code {
        StatusCode::OutOfMemory => Err(Status::from(AllocError)),
        _ => Ok(()),
    }
}

/// Out of memory, if the reply is that, or a move of it was.
fn check_memory(reply: &Reply) -> Result<()> {
    match reply {
        Reply::Refused(status) => check_status(status),
        Reply::Walk(steps) => check_moves(steps),
        _ => Ok(()),
    }
}

fn check_moves(steps: &[ShellStep]) -> Result<()> {
    for led in steps {
        if let ShellStep::Refused(status) = led {
            check_status(status)?;
        }
    }
    Ok(())
}

/// Out of memory, if a call was.
pub fn pass_on_memory(recorded: &Recorded) -> Result<()> {
    for call in &recorded.calls {
        check_memory(&call.reply)?;
    }
    Ok(())
}

/// What a store replies to a look-up of each key, which is opened for that.
pub fn find_all(alloc: Global, env: &mut RecordEnv, setting: Setting) -> Result<Vec<Reply>> {
    let mut replies = Vec::new(alloc);
    run(
        env,
        "db",
        options_of(setting),
        &look_ups(alloc, setting.keys)?,
        &mut replies,
    )?;
    for reply in &replies {
        check_memory(reply)?;
    }
    Ok(replies)
}

fn reply_to_open(opened: Result<()>) -> Reply {
    match opened {
        Ok(()) => Reply::Done,
        Err(status) => Reply::Refused(status),
    }
}

fn add_call(calls: &mut Vec<Call>, step: Step, reply: Reply, moment: u64) -> Result<()> {
    calls.push(Call {
        step,
        reply,
        moment,
    })?;
    Ok(())
}

/// The calls of a life that began and ended at these moments. Its first reply shows when its
/// opening returned.
pub fn add_calls(
    calls: &mut Vec<Call>,
    report: Report,
    start: u64,
    end: u64,
    steps: &[Step],
) -> Result<()> {
    let Report { opened, replies } = report;
    let returned = match replies.first() {
        Some(first) => start.saturating_add(first.0),
        None => end,
    };
    add_call(calls, Step::Open, reply_to_open(opened), returned)?;
    for (step, (moment, reply)) in steps.iter().zip(replies) {
        add_call(calls, *step, reply, start.saturating_add(moment))?;
    }
    add_call(calls, Step::Abandon, Reply::Done, end)
}

/// Runs one more life on a device.
pub fn record_life(alloc: Global, recorded: &mut Recorded, steps: &[Step]) -> Result<()> {
    let start = recorded.env.moment();
    let report = live(
        alloc,
        &mut recorded.env,
        "db",
        options_of(recorded.setting),
        &commands_of(alloc, steps)?,
    )?;
    let end = recorded.env.moment();
    add_calls(&mut recorded.calls, report, start, end, steps)
}

/// Runs a script on this device.
pub fn record_on(alloc: Global, env: RecordEnv, script: Script<'_>) -> Result<Recorded> {
    let mut recorded = Recorded {
        setting: script.setting,
        every: script.every,
        env,
        calls: Vec::new(alloc),
    };
    for steps in script.lives {
        record_life(alloc, &mut recorded, steps)?;
    }
    Ok(recorded)
}

/// Runs a script on an empty device.
pub fn record(alloc: Global, script: Script<'_>) -> Result<Recorded> {
    record_on(alloc, RecordEnv::new(alloc), script)
}

/// The slow store after these calls.
pub fn judge_all(alloc: Global, calls: &[Call]) -> Result<SlowStore> {
    let mut slow = SlowStore::new(alloc)?;
    for call in calls {
        judge(&mut slow, alloc, &call.step, &call.reply)?;
    }
    Ok(slow)
}

/// How many calls returned by this moment, and whether it is past the last of them, so that the
/// next may have begun.
pub fn calls_by(calls: &[Call], moment: u64) -> (usize, bool) {
    let done = calls
        .iter()
        .take_while(|call| call.moment <= moment)
        .count();
    let (returned, _) = calls.split_at(done);
    let last = returned.last().map_or(0, |call| call.moment);
    (done, last < moment)
}

/// The slow store after a crash at this moment and a reopening: the calls that returned by then
/// happened, and the next may have begun.
pub fn judge_crash(alloc: Global, calls: &[Call], moment: u64) -> Result<SlowStore> {
    let (done, is_inside) = calls_by(calls, moment);
    let (returned, later) = calls.split_at(done);
    let mut slow = judge_all(alloc, returned)?;
    match later.first() {
        Some(next) if is_inside => crash_inside(&mut slow, alloc, &next.step)?,
        _ => slow.crashed()?,
    }
    slow.opened()?;
    Ok(slow)
}

/// How many crashes there were, how often a store was opened on what they left, how many crashes
/// there were where the slow store allows more than one map, and how many of these left the
/// shortest history and the longest.
#[derive(Clone, Copy, Debug)]
pub struct Tally {
    pub crashes: usize,
    pub openings: usize,
    pub open: usize,
    pub shortest: usize,
    pub longest: usize,
}

impl Tally {
    pub fn new() -> Tally {
        Tally {
            crashes: 0,
            openings: 0,
            open: 0,
            shortest: 0,
            longest: 0,
        }
    }

    /// Counts one crash, and returns whether what was found is an allowed map.
    pub fn count(&mut self, maps: &[Vec<BorrowedPair<'_>>], found: &[Reply]) -> bool {
        self.crashes = self.crashes.saturating_add(1);
        if let [first, .., last] = maps {
            self.open = self.open.saturating_add(1);
            self.shortest = self
                .shortest
                .saturating_add(usize::from(is_map(first, found)));
            self.longest = self
                .longest
                .saturating_add(usize::from(is_map(last, found)));
        }
        is_any_map(maps, found)
    }
}

/// Asserts what is to be so of the crashes that were counted.
pub fn assert_tally(rt: &impl Abort, tally: Tally, is_right: bool) {
    assert!(rt; is_right, "{tally:?}");
}

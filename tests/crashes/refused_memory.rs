//! Scripts of a store whose requests for memory may be refused: `./test` refuses one of each call,
//! and `tools/refuse` each of all in turn. All that the store shows then is what the slow store
//! allows, and so is what it shows after other changes; the call that met the refusal is made
//! again, and a test whose calls were all right ends with the refusal.
use super::crash_disks::{DEFAULTS, Setting, add_calls, judge_all, options_of};
use super::replies::refusal;
use super::steps::{Call, Change, Step, commands_of, judge, shell_moves, written_by};
use super::sweep::have_causes;
use super::twelve_keys::{OVER_ALL, SCRIPT, STEPS};
use leveldb_base::cmp::DefaultCmp;
use leveldb_base::error::{Result, Status, StatusCode};
use leveldb_env::env::Env;
use leveldb_env::filter::BloomPolicy;
use leveldb_env::mem_env::{MemEnv, Pick};
use rusty_leveldb::db_impl::Engine;
use rusty_leveldb::shell::{Life, Move as ShellMove, Reply, Report, lives};
use rusty_leveldb::{Snapshot, WriteBatch};
use slow_machine::SlowStore;
use std::alloc::{AllocError, Global};
use std::process::Abort;
use support::{CountedAppends, Marks};

type Device = CountedAppends<MemEnv>;

type DefaultEngine = Engine<Device, DefaultCmp, BloomPolicy>;

/// A store in memory, what the slow store says of it, and how many of its calls found no memory.
#[derive(Drop)]
struct Trial {
    alloc: Global,
    env: Device,
    setting: Setting,
    slow: SlowStore,
    /// The snapshots that were taken; none in place of one that was released.
    taken: Vec<Option<Snapshot>>,
    marks: Marks,
    refused: usize,
}

/// A step, and what it gives the call: the test takes no memory in the call then.
#[derive(Drop)]
struct Prepared {
    step: Step,
    batch: WriteBatch,
    moves: Vec<ShellMove>,
}

fn is_of_memory(status: &Status) -> bool {
    status.code == StatusCode::OutOfMemory
}

fn has_no_text(status: &Status) -> bool {
    match &status.err {
        None => true,
        Some(text) => text.is_empty(),
    }
}

fn reply_of(answer: Result<()>) -> Reply {
    match answer {
        Ok(()) => Reply::Done,
        Err(status) => Reply::Refused(status),
    }
}

fn batch_of(alloc: Global, changes: &[Change]) -> Result<WriteBatch> {
    let mut batch = WriteBatch::new(alloc)?;
    for (key, value) in changes {
        match value {
            None => batch.delete(key.as_bytes())?,
            Some(value) => batch.put(key.as_bytes(), value.as_bytes())?,
        }
    }
    Ok(batch)
}

impl Trial {
    fn new(alloc: Global, setting: Setting) -> Result<Trial> {
        Ok(Trial {
            alloc,
            env: CountedAppends::over(MemEnv::new(alloc)),
            setting,
            slow: SlowStore::new(alloc)?,
            taken: Vec::new(alloc),
            marks: Marks::new(alloc),
            refused: 0,
        })
    }

    /// Counts a call that failed: a request of it was refused, and it says nothing more.
    fn count(&mut self, rt: &impl Abort, status: &Status, was_refused: bool) {
        self.refused = self.refused.saturating_add(1);
        assert!(rt;
            was_refused && is_of_memory(status) && has_no_text(status),
            "{status:?}"
        );
    }

    fn open_once(&mut self) -> Result<DefaultEngine> {
        Engine::open(self.alloc, "db", &mut self.env, options_of(self.setting))
    }

    /// Opens the store. An opening that finds no memory leaves the lock free.
    fn open(&mut self, rt: &impl Abort) -> Result<DefaultEngine> {
        self.marks.begin();
        let mut opened = self.open_once();
        let was_refused = self.marks.end();
        if let Err(status) = &opened {
            self.count(rt, status, was_refused);
            self.slow.was_closed()?;
            assert!(rt; self.env.lock("db/LOCK").is_ok() && self.env.unlock("db/LOCK").is_ok());
            opened = self.open_once();
        }
        assert!(rt; opened.is_ok());
        let mut engine = opened?;
        self.slow.opened()?;
        self.taken.clear();
        if was_refused {
            self.assert_views(rt, &mut engine)?;
        }
        Ok(engine)
    }

    fn snapshot(&mut self, engine: &mut DefaultEngine) -> Result<Reply> {
        Ok(match engine.get_snapshot() {
            Ok(snapshot) => {
                self.taken.push(Some(snapshot))?;
                Reply::Snapshot(self.taken.len().saturating_sub(1))
            }
            Err(status) => Reply::Refused(status),
        })
    }

    /// The snapshot of this number, if it is held.
    fn taken_at(&self, at: Option<usize>) -> Option<Snapshot> {
        *self.taken.get(at?)?
    }

    fn look_up(&mut self, engine: &mut DefaultEngine, at: Option<usize>, key: &str) -> Reply {
        let found = match self.taken_at(at) {
            Some(snapshot) => engine.get_at(&mut self.env, snapshot, key.as_bytes()),
            None => engine.get(&mut self.env, key.as_bytes()),
        };
        match found {
            Ok(Some(value)) => Reply::Value(value),
            Ok(None) => Reply::Nothing,
            Err(status) => Reply::Refused(status),
        }
    }

    fn walk(
        &mut self,
        engine: &mut DefaultEngine,
        at: Option<usize>,
        moves: &[ShellMove],
    ) -> Reply {
        let snapshot = self.taken_at(at);
        let mut led = Vec::new(self.alloc);
        match engine.walk(&mut self.env, snapshot, moves, &mut led) {
            Ok(()) => Reply::Walk(led),
            Err(status) => Reply::Refused(status),
        }
    }

    fn release(&mut self, engine: &mut DefaultEngine, number: usize) -> Reply {
        let Some(snapshot) = self.taken_at(Some(number)) else {
            return Reply::Nothing;
        };
        self.taken[number] = None;
        reply_of(engine.release_snapshot(snapshot))
    }

    fn compact(&mut self, engine: &mut DefaultEngine, from: &str, to: &str) -> Reply {
        reply_of(engine.compact_range(&mut self.env, from.as_bytes(), to.as_bytes()))
    }

    fn prepare(&mut self, step: &Step) -> Result<Prepared> {
        let mut prepared = Prepared {
            step: *step,
            batch: WriteBatch::new(self.alloc)?,
            moves: Vec::new(self.alloc),
        };
        match step {
            Step::Write(_, changes) => prepared.batch = batch_of(self.alloc, *changes)?,
            Step::Walk(_, moves) => prepared.moves = shell_moves(self.alloc, *moves)?,
            _ => self.taken.reserve(1)?,
        }
        Ok(prepared)
    }

    /// What an open store replies.
    fn make(&mut self, engine: &mut DefaultEngine, prepared: Prepared) -> Result<Reply> {
        let Prepared { step, batch, moves } = prepared;
        Ok(match step {
            Step::Put(key, value) => {
                reply_of(engine.put(&mut self.env, key.as_bytes(), value.as_bytes()))
            }
            Step::Delete(key) => reply_of(engine.delete(&mut self.env, key.as_bytes())),
            Step::Write(sync, _) => reply_of(engine.write(&mut self.env, batch, sync)),
            Step::Compact(from, to) => self.compact(engine, from, to),
            Step::Flush => reply_of(engine.flush(&mut self.env)),
            Step::Get(key) => self.look_up(engine, None, key),
            Step::GetAt(number, key) => self.look_up(engine, Some(number), key),
            Step::Walk(at, _) => self.walk(engine, at, &moves),
            Step::Snap => self.snapshot(engine)?,
            Step::Release(number) => self.release(engine, number),
            Step::Open | Step::Close | Step::Abandon => Reply::Done,
        })
    }

    /// What an open store replies to a step. Err: the test itself found no memory.
    fn reply(&mut self, engine: &mut DefaultEngine, step: &Step) -> Result<Reply> {
        let prepared = self.prepare(step)?;
        self.make(engine, prepared)
    }

    /// What it replies where a request of the call may be refused, and whether one was.
    fn marked_reply(&mut self, engine: &mut DefaultEngine, step: &Step) -> Result<(Reply, bool)> {
        let prepared = self.prepare(step)?;
        self.marks.begin();
        let reply = self.make(engine, prepared);
        let was_refused = self.marks.end();
        Ok((reply?, was_refused))
    }

    /// The slow store allows this reply.
    fn assert_reply(&mut self, rt: &impl Abort, step: &Step, reply: &Reply) -> Result<()> {
        judge(&mut self.slow, self.alloc, step, reply)?;
        assert!(rt; self.slow.is_possible(), "{reply:?}");
        Ok(())
    }

    /// A change found no memory before an append to a log or manifest began: nothing changed, and
    /// the store is open.
    fn assert_open(&mut self, rt: &impl Abort, engine: &DefaultEngine, step: &Step) -> Result<()> {
        assert!(rt; engine.check_writable().is_ok());
        match written_by(self.alloc, step)? {
            Some((items, _)) => self.slow.refused_write(&items, false),
            None => self.slow.compacted(),
        }
    }

    /// Opens the store again, where a call broke it, since the device had no memory for an append.
    fn mend(&mut self, rt: &impl Abort, engine: &mut DefaultEngine) -> Result<()> {
        if engine.check_writable().is_err() {
            self.slow.abandoned()?;
            assert!(rt; self.env.unlock("db/LOCK").is_ok());
            *engine = self.open(rt)?;
        }
        Ok(())
    }

    /// All that the store shows now and at each snapshot is what the slow store allows.
    fn assert_views(&mut self, rt: &impl Abort, engine: &mut DefaultEngine) -> Result<()> {
        for number in 0..=self.taken.len() {
            let step = Step::Walk(number.checked_sub(1), OVER_ALL);
            if self.has_snapshot(&step) {
                self.call_again(rt, engine, &step)?;
            }
        }
        Ok(())
    }

    /// Makes a call that finds memory.
    fn call_again(
        &mut self,
        rt: &impl Abort,
        engine: &mut DefaultEngine,
        step: &Step,
    ) -> Result<()> {
        let reply = self.reply(engine, step)?;
        assert!(rt; refusal(&reply).is_none(), "{step:?}: {reply:?}");
        self.assert_reply(rt, step, &reply)
    }

    /// A call failed. Returns once the store is open again.
    fn assert_failed(
        &mut self,
        rt: &impl Abort,
        engine: &mut DefaultEngine,
        step: &Step,
        reply: &Reply,
        begun: usize,
    ) -> Result<()> {
        if self.env.rule.begun == begun && !is_read(step) {
            self.assert_open(rt, engine, step)?;
        } else {
            self.assert_reply(rt, step, reply)?;
        }
        self.mend(rt, engine)
    }

    /// Makes a call. Of one that found no memory nothing is left, also where other changes get the
    /// numbers that its entries would have; it is made again then.
    fn call(&mut self, rt: &impl Abort, engine: &mut DefaultEngine, step: &Step) -> Result<()> {
        let begun = self.env.rule.begun;
        let (reply, was_refused) = self.marked_reply(engine, step)?;
        let Some(status) = refusal(&reply) else {
            self.assert_reply(rt, step, &reply)?;
            if was_refused {
                self.assert_views(rt, engine)?;
            }
            return Ok(());
        };
        self.count(rt, status, was_refused);
        self.assert_failed(rt, engine, step, &reply, begun)?;
        self.assert_views(rt, engine)?;
        if !is_read(step) {
            self.call_again(rt, engine, &OTHERS)?;
            self.assert_views(rt, engine)?;
        }
        self.call_again(rt, engine, step)
    }

    /// Opens the store, makes these calls and those, and abandons it, which takes no memory.
    fn live(&mut self, rt: &impl Abort, steps: &[Step], more: &[Step]) -> Result<()> {
        let mut engine = self.open(rt)?;
        for step in steps.iter().chain(more) {
            if self.has_snapshot(step) {
                self.call(rt, &mut engine, step)?;
            }
        }
        assert!(rt; engine.abandon(&mut self.env).is_ok());
        self.slow.abandoned()
    }

    /// Whether the snapshot that a step names is held: after another opening none is.
    fn has_snapshot(&self, step: &Step) -> bool {
        match step {
            Step::GetAt(number, _) | Step::Release(number) | Step::Walk(Some(number), _) => {
                self.taken_at(Some(*number)).is_some()
            }
            _ => true,
        }
    }

    /// Ends with the refusal, if a call was refused.
    fn end(&self) -> Result<()> {
        if self.refused > 0 {
            return Err(Status::from(AllocError));
        }
        Ok(())
    }
}

/// Whether a step changes nothing but which snapshots are held.
fn is_read(step: &Step) -> bool {
    matches!(
        step,
        Step::Get(_) | Step::GetAt(_, _) | Step::Walk(_, _) | Step::Snap | Step::Release(_)
    )
}

/// Changes that leave each map as it was, and take as many numbers as any batch here.
const OTHERS: Step = Step::Write(
    false,
    &[
        ("m", Some("1")),
        ("m", Some("2")),
        ("m", Some("3")),
        ("m", None),
    ],
);

/// What is asked besides, with the snapshot that is held.
const MORE: &[Step] = &[
    Step::GetAt(0, "a"),
    Step::GetAt(0, "l"),
    Step::Put("l", "13"),
    Step::Walk(Some(0), OVER_ALL),
    Step::Flush,
    Step::Release(0),
    Step::Compact("b", "l"),
];

/// What is asked of the store that is opened again.
const LATER: &[Step] = &[
    Step::Walk(None, OVER_ALL),
    Step::Get("a"),
    Step::Get("h"),
    Step::Write(true, &[("a", Some("14")), ("c", None)]),
    Step::Get("c"),
];

#[test]
fn a_script_and_a_reopening(rt: HostRuntime) -> Result<()> {
    let mut trial = Trial::new(rt.alloc(), SCRIPT.setting)?;
    trial.live(&rt, STEPS, MORE)?;
    trial.live(&rt, LATER, &[])?;
    trial.end()
}

/// The same with logs and manifests that aren't used on.
#[test]
fn a_script_and_a_reopening_with_new_logs(rt: HostRuntime) -> Result<()> {
    let mut setting = SCRIPT.setting;
    setting.reuses = false;
    let mut trial = Trial::new(rt.alloc(), setting)?;
    trial.live(&rt, STEPS, MORE)?;
    trial.live(&rt, LATER, &[])?;
    trial.end()
}

/// Fills a memtable's room in a few entries.
const LONG: &str =
    "a value of some length, so that the room for entries is used up amid a batch too";

/// Batches of several entries, in one memtable.
const BATCHES: &[Step] = &[
    Step::Write(
        false,
        &[("a", Some(LONG)), ("b", Some("1")), ("c", Some(LONG))],
    ),
    Step::Write(
        true,
        &[
            ("d", Some(LONG)),
            ("a", None),
            ("b", Some(LONG)),
            ("e", Some("2")),
        ],
    ),
    Step::Snap,
    Step::Write(false, &[("c", None), ("f", Some(LONG)), ("e", Some(LONG))]),
    Step::Write(
        false,
        &[
            ("g", Some(LONG)),
            ("a", Some("3")),
            ("h", Some(LONG)),
            ("d", None),
        ],
    ),
    Step::Write(
        false,
        &[("i", Some(LONG)), ("b", Some("4")), ("c", Some(LONG))],
    ),
    Step::Write(
        true,
        &[
            ("j", Some(LONG)),
            ("k", Some(LONG)),
            ("g", None),
            ("l", Some(LONG)),
        ],
    ),
    Step::Walk(Some(0), OVER_ALL),
];

#[test]
fn batches_in_one_memtable(rt: HostRuntime) -> Result<()> {
    let mut trial = Trial::new(rt.alloc(), DEFAULTS)?;
    trial.live(&rt, BATCHES, &[])?;
    trial.live(&rt, LATER, &[])?;
    trial.end()
}

/// Writes each of which makes a table, so that some compact level 0.
const TABLES: &[Step] = &[
    Step::Write(false, &[("a", Some("1")), ("b", Some("2"))]),
    Step::Snap,
    Step::Put("c", "3"),
    Step::Write(false, &[("a", None), ("d", Some("4"))]),
    Step::Put("a", "5"),
    Step::Delete("b"),
    Step::Put("c", "6"),
    Step::Write(true, &[("b", Some("7")), ("e", Some("8"))]),
    Step::Walk(Some(0), OVER_ALL),
];

#[test]
fn compactions_in_writes(rt: HostRuntime) -> Result<()> {
    let mut setting = DEFAULTS;
    setting.write_buffer_size = 1;
    let mut trial = Trial::new(rt.alloc(), setting)?;
    trial.live(&rt, TABLES, &[])?;
    trial.live(&rt, LATER, &[])?;
    trial.end()
}

/// Two values of a key, the older at a snapshot, through two compactions.
const TWO_VALUES: &[Step] = &[
    Step::Put("a", "1"),
    Step::Snap,
    Step::Put("a", "2"),
    Step::Compact("", ""),
    Step::GetAt(0, "a"),
    Step::Get("a"),
    Step::Compact("", ""),
    Step::GetAt(0, "a"),
    Step::Get("a"),
];

#[test]
fn two_values_through_compactions(rt: HostRuntime) -> Result<()> {
    let mut trial = Trial::new(rt.alloc(), DEFAULTS)?;
    trial.live(&rt, TWO_VALUES, &[])?;
    trial.live(&rt, &[Step::Get("a")], &[])?;
    trial.end()
}

/// A look-up of each key.
const LOOK_UPS: &[Step] = &[
    Step::Get("a"),
    Step::Get("b"),
    Step::Get("c"),
    Step::Get("d"),
    Step::Get("e"),
    Step::Get("f"),
    Step::Get("g"),
    Step::Get("h"),
    Step::Get("i"),
    Step::Get("j"),
    Step::Get("k"),
    Step::Get("l"),
];

/// A life of these steps, and a crash at this moment of it that leaves what is durable, if there is
/// one.
fn life(
    alloc: Global,
    steps: &[Step],
    moment: Option<u64>,
) -> Result<Life<DefaultCmp, BloomPolicy>> {
    Ok(Life {
        options: options_of(SCRIPT.setting),
        commands: commands_of(alloc, steps)?,
        moment,
        pick: Pick {
            tails: Vec::new(alloc),
            after: false,
        },
        fail: None,
    })
}

/// The script, a life that a crash takes back to its start, and one that looks at what the crash
/// left.
fn three_lives(alloc: Global, marks: &mut Marks) -> Result<Vec<Report>> {
    let mut all = Vec::new(alloc);
    all.push(life(alloc, STEPS, None)?)?;
    all.push(life(alloc, LOOK_UPS, Some(0))?)?;
    all.push(life(alloc, LOOK_UPS, None)?)?;
    marks.begin();
    let reports = lives(alloc, "db", all);
    let _ = marks.end();
    reports
}

fn calls_of(alloc: Global, report: Option<Report>, steps: &[Step]) -> Result<Vec<Call>> {
    let mut calls = Vec::new(alloc);
    if let Some(report) = report {
        add_calls(&mut calls, report, 0, u64::MAX, steps)?;
    }
    Ok(calls)
}

/// The slow store allows these calls; returns how many of them found no memory.
fn assert_calls(
    rt: &impl Abort,
    alloc: Global,
    slow: &mut SlowStore,
    calls: &[Call],
) -> Result<usize> {
    let mut refused: usize = 0;
    for call in calls {
        judge(slow, alloc, &call.step, &call.reply)?;
        if let Some(status) = refusal(&call.reply)
            && is_of_memory(status)
        {
            assert!(rt; has_no_text(status));
            refused = refused.saturating_add(1);
        }
    }
    assert!(rt; slow.is_possible() && have_causes(calls));
    Ok(refused)
}

#[test]
fn lives_of_a_script(rt: HostRuntime) -> Result<()> {
    let alloc = rt.alloc();
    let mut marks = Marks::new(alloc);
    let mut reports = three_lives(alloc, &mut marks)?;
    let third = calls_of(alloc, reports.pop(), LOOK_UPS)?;
    let second = calls_of(alloc, reports.pop(), LOOK_UPS)?;
    let first = calls_of(alloc, reports.pop(), STEPS)?;
    let mut slow = SlowStore::new(alloc)?;
    let mut refused = assert_calls(&rt, alloc, &mut slow, &first)?;
    let mut crashed = judge_all(alloc, &first)?;
    crashed.crashed()?;
    refused += assert_calls(&rt, alloc, &mut slow, &second)?;
    refused += assert_calls(&rt, alloc, &mut crashed, &third)?;
    assert!(rt; refused <= 1);
    if refused == 1 {
        return Err(Status::from(AllocError));
    }
    Ok(())
}

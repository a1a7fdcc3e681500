//! An information log whose sink refuses every line changes nothing that a store returns, and no file.
use super::acts::{Setting, options_of};
use super::stores::{STORE, files_of};
use leveldb_base::error::{Result, Status, StatusCode, err};
use leveldb_disks::mem_env::{Pick, RecordEnv};
use leveldb_env::env::Env;
use leveldb_env::infolog::{InfoSink, Logger};
use rusty_leveldb::shell::{Command, Reply, Script, parse, put_replies, run};
use std::alloc::Global;
use std::cell::Cell;
use std::rc::Rc;
use support::{answered, code_of};

/// A sink that refuses each line, and counts them.
#[derive(Drop)]
struct Deaf {
    alloc: Global,
    lines: Rc<Cell<usize>>,
}

impl InfoSink for Deaf {
    fn write(&mut self, _line: &[u8]) -> Result<()> {
        self.lines.set(self.lines.get().saturating_add(1));
        err(self.alloc, StatusCode::IOError, "the sink is deaf")
    }
}

/// The lines that were refused by then, where a sink is set.
type Lines<'a> = Option<&'a Rc<Cell<usize>>>;

/// Runs, one after another, that each open the store anew.
const RUNS: [&[u8]; 9] = [
    b"",
    b"put 61 31\nwrite 1 +62=32\nput 63 33\nget 61\nget 63\n",
    b"write 1 +64=34\nget 61\nget 63\ngetat 0 61\nclose\nget 61\n",
    b"put 6b 31\nsnap\nput 6b 32\ngetat 0 6b\nget 6b\nrelease 0\ngetat 0 6b\ndel 6b\nget 6b\n",
    b"put 61 31\nput 62 32\nput 63 33\ndel 62\nwalk now seek=63 prev prev prev next\n",
    b"put . .\nget .\nwalk now first next seek=.\nflush\n",
    b"put 6b 31\nsnap\nput 6b 32\ncompact . .\ngetat 0 6b\nget 6b\nrelease 0\ngetat 0 6b\n",
    b"compact . .\ndel 6b\ncompact . .\nget 6b\n",
    b"get 6b\nwalk now first next next next next\n",
];

/// A compaction of a table that an earlier one left, and calls after it, in the third run.
const COMPACTED: [&[u8]; 4] = [
    b"put 6b 31\ncompact . .\n",
    b"write 1 +6b=32 +61=31\n",
    b"get 6b\ncompact . .\nput 62 31\nget 6b\nget 62\n",
    b"get 6b\nget 61\nget 62\ncompact . .\nget 6b\n",
];

pub fn commands_of(alloc: Global, text: &[u8]) -> Result<Vec<Command>> {
    match parse(alloc, text)? {
        Script::Commands(commands) => Ok(commands),
        Script::BadLine(_) => err(alloc, StatusCode::InvalidArgument, "a bad line"),
    }
}

fn play<E: Env>(
    alloc: Global,
    env: &mut E,
    setting: Setting,
    lines: Lines<'_>,
    commands: &[Command],
    replies: &mut Vec<Reply>,
) -> Result<()> {
    let mut options = options_of(setting);
    if let Some(lines) = lines {
        let lines = lines.clone()?;
        options.log = Some(Logger(Box::new(alloc, Deaf { alloc, lines })?));
    }
    run(env, STORE, options, commands, replies)
}

/// The code with which a run ended. Out of memory is passed on, also that of a reply.
pub fn end_of(ended: Result<()>, replies: &[Reply]) -> Result<StatusCode> {
    let is_refused = |reply: &Reply| {
        matches!(reply, Reply::Refused(status) if status.code == StatusCode::OutOfMemory)
    };
    if replies.iter().any(is_refused) {
        return Err(Status {
            code: StatusCode::OutOfMemory,
            err: None,
        });
    }
    Ok(code_of(&answered(ended)?))
}

/// Appends what a run prints, how it ends, and which files it leaves. No call fails afterwards.
fn show(
    env: &mut RecordEnv,
    setting: Setting,
    lines: Lines<'_>,
    text: &[u8],
    shown: &mut Vec<u8>,
) -> Result<()> {
    let alloc = *shown.allocator();
    let commands = commands_of(alloc, text)?;
    let mut replies = Vec::new(alloc);
    let ended = play(alloc, env, setting, lines, &commands, &mut replies);
    env.fail(0, false);
    let code = end_of(ended, &replies)?;
    put_replies(shown, &replies)?;
    let end = format!(in alloc; "{code}: {}\n", files_of(alloc, env)?)?;
    shown.extend_from_slice(end.as_bytes())?;
    Ok(())
}

/// The call that fails, none if it is 0, and whether its change is made.
type Failing = (u64, bool);

/// What runs of a store show, each after a crash that leaves no tails. In the third one a call fails.
fn show_all(
    alloc: Global,
    setting: Setting,
    failing: Failing,
    lines: Lines<'_>,
    runs: &[&[u8]],
) -> Result<Vec<u8>> {
    let mut shown = Vec::new(alloc);
    let mut env = RecordEnv::new(alloc);
    for (at, text) in runs.iter().enumerate() {
        if at == 2 {
            env.fail(failing.0, failing.1);
        }
        show(&mut env, setting, lines, text, &mut shown)?;
        let pick = Pick {
            after: false,
            tails: Vec::new(alloc),
        };
        env = env.disk_at(alloc, env.moment(), &pick)?;
    }
    Ok(shown)
}

/// Whether runs show the same with the sink that refuses each line.
fn shows_the_same(
    alloc: Global,
    setting: Setting,
    failing: Failing,
    lines: &Rc<Cell<usize>>,
    runs: &[&[u8]],
) -> Result<bool> {
    let shown = show_all(alloc, setting, failing, None, runs)?;
    Ok(show_all(alloc, setting, failing, Some(lines), runs)?.as_slice() == shown.as_slice())
}

#[test]
fn a_deaf_sink_changes_no_reply(rt: HostRuntime) -> Result<()> {
    let lines = Rc::new(rt.alloc(), Cell::new(0))?;
    for setting in [
        Setting::Defaults,
        Setting::Reuses(false, false),
        Setting::Buffer(1),
    ] {
        assert!(rt; shows_the_same(rt.alloc(), setting, (0, false), &lines, &RUNS)?);
    }
    Ok(())
}

/// An obsolete file that isn't deleted is told in a line, which is refused.
#[test]
fn a_deaf_sink_changes_no_failure(rt: HostRuntime) -> Result<()> {
    let lines = Rc::new(rt.alloc(), Cell::new(0))?;
    let setting = Setting::Reuses(false, false);
    for nth in 1..50 {
        let is_same = shows_the_same(rt.alloc(), setting, (nth, true), &lines, &RUNS[..3])?;
        assert!(rt; is_same, "call {nth}");
    }
    assert!(rt; lines.get() > 0);
    Ok(())
}

/// What the third run of `COMPACTED` replies where its compaction broke the store.
const BROKEN: &[u8] = b"value 32\nrefused IOError\nrefused IOError\nvalue 32\nnone\n";

/// Each call of a run with a compaction fails once: among them is the sync of its edit, which breaks the store.
#[test]
fn a_deaf_sink_changes_no_failed_compaction(rt: HostRuntime) -> Result<()> {
    let alloc = rt.alloc();
    let lines = Rc::new(alloc, Cell::new(0))?;
    let mut broken: usize = 0;
    for nth in 1..60 {
        for done in [false, true] {
            let failing = (nth, done);
            let shown = show_all(alloc, Setting::Defaults, failing, None, &COMPACTED)?;
            broken += usize::from(shown.windows(BROKEN.len()).any(|part| part == BROKEN));
            let refused = show_all(alloc, Setting::Defaults, failing, Some(&lines), &COMPACTED)?;
            assert!(rt;
                refused.as_slice() == shown.as_slice(),
                "call {nth}, {done}"
            );
        }
    }
    assert!(rt; broken > 0 && lines.get() > 0, "{broken} {}", lines.get());
    Ok(())
}

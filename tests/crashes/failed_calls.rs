//! One call of the device fails, with its change made or not: a sync of a write, an append of one,
//! and the rename that makes `CURRENT` name a new manifest.
use super::crash_disks::{
    DEFAULTS, Recorded, Script, Setting, Side, Tails, crash, find_all, options_of, record,
    record_on,
};
use super::replies::is_map;
use super::steps::{Call, Step};
use leveldb_base::error::{Result, StatusCode};
use leveldb_disks::mem_env::RecordEnv;
use leveldb_env::env::whole_files::read_file;
use rusty_leveldb::db_impl::Engine;
use rusty_leveldb::shell::Reply;
use slow_history::BorrowedPair;
use std::alloc::Global;
use std::process::Abort;
use support::{failed_with, is_free};

type Map = &'static [BorrowedPair<'static>];

const NONE: Map = &[];

const A: Map = &[(b"a", b"1")];

const AB: Map = &[(b"a", b"1"), (b"b", b"2")];

/// Whether a store that is opened on this disk has this map.
fn finds(alloc: Global, env: &mut RecordEnv, setting: Setting, map: Map) -> Result<bool> {
    Ok(is_map(map, &find_all(alloc, env, setting)?))
}

/// Runs one life of these steps, where this call of the device fails.
fn run_failing(alloc: Global, steps: &[Step], nth: u64, done: bool) -> Result<Recorded> {
    let mut env = RecordEnv::new(alloc);
    env.fail(nth, done);
    let lives = [steps];
    let script = Script {
        setting: DEFAULTS,
        every: 1,
        lives: &lives,
    };
    record_on(alloc, env, script)
}

/// How many calls of the device open a new store: those before the first look-up returned.
fn calls_to_open(alloc: Global) -> Result<u64> {
    let first = [Step::Get("a")];
    let lives = [first.as_slice()];
    let script = Script {
        setting: DEFAULTS,
        every: 1,
        lives: &lives,
    };
    let recorded = record(alloc, script)?;
    Ok(recorded.calls.first().map_or(0, |call| call.moment / 2))
}

fn is_refused(call: &Call, text: Option<&str>) -> bool {
    match &call.reply {
        Reply::Refused(status) if status.code == StatusCode::IOError => match (text, &status.err) {
            (Some(text), Some(found)) => found.as_str() == text,
            (Some(_), None) => false,
            (None, _) => true,
        },
        _ => false,
    }
}

const SYNCED: &[Step] = &[
    Step::Get("a"),
    Step::Put("a", "1"),
    Step::Write(true, &[("b", Some("2"))]),
    Step::Get("b"),
    Step::Put("c", "3"),
];

const BROKEN: Option<&str> = Some("IOError: reopen the store");

/// Whether the sync failed, its batch isn't read, and the store was broken.
fn are_of_a_failed_sync(calls: &[Call]) -> bool {
    match calls {
        [_open, _get, put, write, get, later, _abandon] => {
            matches!(put.reply, Reply::Done)
                && is_refused(write, None)
                && matches!(get.reply, Reply::Nothing)
                && is_refused(later, BROKEN)
        }
        _ => false,
    }
}

/// What a crash at the end leaves has this map.
fn crash_finds(alloc: Global, recorded: &Recorded, kind: Tails, map: Map) -> Result<bool> {
    let moment = recorded.env.moment();
    let after = false;
    let mut left = crash(alloc, &recorded.env, Side { moment, after }, kind)?;
    finds(alloc, &mut left, recorded.setting, map)
}

/// Two appends come before the sync.
#[test]
fn a_sync_of_a_write(rt: HostRuntime) -> Result<()> {
    let alloc = rt.alloc();
    let nth = calls_to_open(alloc)? + 3;
    for done in [false, true] {
        let mut recorded = run_failing(alloc, SYNCED, nth, done)?;
        assert!(rt; are_of_a_failed_sync(&recorded.calls), "{done}");
        assert!(rt;
            crash_finds(alloc, &recorded, Tails::Nothing, NONE)?,
            "{done}"
        );
        assert!(rt; crash_finds(alloc, &recorded, Tails::Whole, AB)?, "{done}");
        let setting = recorded.setting;
        assert!(rt; finds(alloc, &mut recorded.env, setting, AB)?, "{done}");
    }
    Ok(())
}

const TWO_PUTS: &[Step] = &[
    Step::Get("a"),
    Step::Put("a", "1"),
    Step::Put("b", "2"),
    Step::Get("b"),
];

/// Whether the second put failed, and isn't read.
fn are_of_a_failed_append(calls: &[Call]) -> bool {
    match calls {
        [_open, _get, put, failed, get, _abandon] => {
            matches!(put.reply, Reply::Done)
                && is_refused(failed, None)
                && matches!(get.reply, Reply::Nothing)
        }
        _ => false,
    }
}

#[test]
fn an_append_of_a_write(rt: HostRuntime) -> Result<()> {
    let alloc = rt.alloc();
    let nth = calls_to_open(alloc)? + 2;
    for (done, map) in [(false, A), (true, AB)] {
        let mut recorded = run_failing(alloc, TWO_PUTS, nth, done)?;
        assert!(rt; are_of_a_failed_append(&recorded.calls), "{done}");
        let setting = recorded.setting;
        assert!(rt; finds(alloc, &mut recorded.env, setting, map)?, "{done}");
    }
    Ok(())
}

const K: Map = &[(b"k", b"1")];

/// Each opening makes a new manifest.
const ANEW: Setting = Setting {
    write_buffer_size: 4 << 20,
    max_file_size: 2 << 20,
    reuses: false,
    keys: 13,
};

/// A store of one pair that was closed.
fn closed_store(alloc: Global) -> Result<RecordEnv> {
    let script = Script {
        setting: DEFAULTS,
        every: 1,
        lives: &[&[Step::Put("k", "1"), Step::Close]],
    };
    Ok(record(alloc, script)?.env)
}

/// Options by which the log is used on and a new manifest is made.
fn open_anew(alloc: Global, env: &mut RecordEnv) -> Result<()> {
    let mut options = options_of(DEFAULTS);
    options.reuse_manifest = false;
    Engine::open(alloc, "db", env, options)?.abandon(env)
}

fn names_manifest(alloc: Global, env: &mut RecordEnv, manifest: &[u8]) -> Result<bool> {
    Ok(read_file(alloc, env, "db/CURRENT")?.as_slice() == manifest)
}

/// The store after an opening of which this call fails, with its change made or not.
fn open_failing(rt: &impl Abort, alloc: Global, nth: u64, done: bool) -> Result<RecordEnv> {
    let mut env = closed_store(alloc)?;
    env.fail(nth, done);
    assert!(rt;
        failed_with(open_anew(alloc, &mut env), StatusCode::IOError)?,
        "call {nth}"
    );
    Ok(env)
}

/// The number of the rename's call: the first that changes `CURRENT` where it fails with its change
/// made.
fn rename_call(rt: &impl Abort, alloc: Global) -> Result<u64> {
    for nth in 1..60 {
        let mut env = open_failing(rt, alloc, nth, true)?;
        if names_manifest(alloc, &mut env, b"MANIFEST-000004\n")? {
            return Ok(nth);
        }
    }
    Ok(0)
}

#[test]
fn the_rename_of_a_new_manifest(rt: HostRuntime) -> Result<()> {
    let alloc = rt.alloc();
    let nth = rename_call(&rt, alloc)?;
    assert!(rt; nth > 0);
    let mut env = open_failing(&rt, alloc, nth, true)?;
    assert!(rt; is_free(&mut env)? && finds(alloc, &mut env, ANEW, K)?);
    let mut env = open_failing(&rt, alloc, nth, false)?;
    assert!(rt; is_free(&mut env)?);
    assert!(rt; names_manifest(alloc, &mut env, b"MANIFEST-000001\n")?);
    open_anew(alloc, &mut env)?;
    assert!(rt; names_manifest(alloc, &mut env, b"MANIFEST-000005\n")?);
    assert!(rt; finds(alloc, &mut env, ANEW, K)?);
    Ok(())
}

//! Stores that are read alone: what they show is what an opening then finds, and no call changes a
//! file or a lock.
use super::acts::{Setting, options_of};
use super::replays::{damage, random_log_from};
use super::stores::{
    DefaultOptions, Row, STORE, cut_file, files_of, put_all, put_log, reopen, store_of,
};
use leveldb_base::cmp::DefaultCmp;
use leveldb_base::error::{Result, StatusCode};
use leveldb_env::env::Env;
use leveldb_env::mem_env::MemEnv;
use leveldb_env::options::Options;
use leveldb_iter::moves::{Move, Step};
use leveldb_mem::log::LogWriter;
use leveldb_store::open_store::OpenStore;
use leveldb_version::table_cache::TableCache;
use leveldb_version::version_edit::VersionEdit;
use rusty_leveldb::db_impl::Engine;
use std::alloc::Global;
use std::process::Abort;
use support::{OnlyReads, Random, ShortReads, failed_with, file_bytes, put_file};

/// How many pairs are looked at most.
const MOST: usize = 200;

/// The last number of a store and what it shows there: each key and how long its value is, in
/// order.
fn shown<E: Env>(
    alloc: Global,
    env: &mut E,
    store: &OpenStore<E, DefaultCmp>,
    options: &DefaultOptions,
) -> Result<String> {
    let mut tables = TableCache::new(alloc, STORE, options)?;
    let last = store.last_sequence();
    let mut moves = Vec::new(alloc);
    moves.push(Move::First)?;
    for _ in 0..MOST {
        moves.push(Move::Next)?;
    }
    let mut steps = Vec::with_capacity(alloc, moves.len())?;
    store.walk(env, options, &mut tables, last, &moves, &mut steps)?;
    let mut text = format!(in alloc; "{last}:")?;
    for step in steps {
        match step {
            Step::At(key, value) => {
                let key = std::str::from_utf8(key.as_slice()).unwrap_or("?");
                text.push_str(&format!(in alloc; " {key}={}", value.len())?)?;
            }
            Step::Invalid => return Ok(text),
            Step::Refused(status) => return Err(status),
        }
    }
    Ok(format!(in alloc; "more than {MOST} pairs")?)
}

/// What a store that is opened to be read alone shows. A call that could change a file or a lock is
/// refused, and makes this another text.
fn shown_alone<E: Env + Drop>(
    alloc: Global,
    env: E,
    options: &DefaultOptions,
) -> Result<(Result<String>, E)> {
    let mut alone = OnlyReads::of(env);
    let mut text = match OpenStore::open_to_read(alloc, &mut alone, STORE, options) {
        Ok(store) => shown(alloc, &mut alone, &store, options),
        Err(status) => Err(status),
    };
    if alone.rule.refused > 0 {
        text = Ok(format!(in alloc; "{} calls were refused", alone.rule.refused)?);
    }
    Ok((text, alone.env))
}

/// What a store that is opened to be written shows.
fn shown_opened<E: Env>(alloc: Global, env: &mut E, options: &DefaultOptions) -> Result<String> {
    let store = OpenStore::open(alloc, env, STORE, options)?;
    shown(alloc, env, &store, options)
}

/// A text, or the code of an error. Out of memory is passed on.
fn told(alloc: Global, answer: Result<String>) -> Result<String> {
    match answer {
        Ok(text) => Ok(text),
        Err(status) if status.code == StatusCode::OutOfMemory => Err(status),
        Err(status) => Ok(format!(in alloc; "{:?}", status.code)?),
    }
}

/// What this disk shows, where it is the same read alone and opened to be written then, and the
/// former leaves the files as they are.
fn shown_both_ways<E: Env + Drop>(
    rt: &impl Abort,
    alloc: Global,
    env: E,
    setting: Setting,
) -> Result<String> {
    let mut env = env;
    let options = options_of(setting);
    let before = files_of(alloc, &mut env)?;
    let (alone, mut env) = shown_alone(alloc, env, &options)?;
    let alone = told(alloc, alone)?;
    assert!(rt; files_of(alloc, &mut env)? == before, "files changed");
    let opened = told(alloc, shown_opened(alloc, &mut env, &options))?;
    assert!(rt; alone == opened, "alone {alone}, but opened {opened}");
    Ok(alone)
}

/// This disk shows this both ways.
fn shows<E: Env + Drop>(
    rt: &impl Abort,
    alloc: Global,
    env: E,
    setting: Setting,
    wanted: &str,
) -> Result<()> {
    let text = shown_both_ways(rt, alloc, env, setting)?;
    assert!(rt; text.as_str() == wanted, "{text} in place of {wanted}");
    Ok(())
}

/// A disk with a log whose end is torn after two of three rows, and this log after it.
fn torn_before(alloc: Global, rows: &[Row]) -> Result<MemEnv> {
    let mut env = MemEnv::new(alloc);
    reopen(alloc, &mut env, Options::default())?;
    put_log(
        alloc,
        &mut env,
        "000003.log",
        &[(1, "a"), (2, "b"), (3, "c")],
    )?;
    cut_file(alloc, &mut env, "000003.log", 60)?;
    put_log(alloc, &mut env, "000004.log", rows)?;
    Ok(env)
}

/// A disk with three logs.
fn with_logs(alloc: Global) -> Result<MemEnv> {
    let mut env = MemEnv::new(alloc);
    reopen(alloc, &mut env, Options::default())?;
    put_log(alloc, &mut env, "000003.log", &[(1, "a"), (2, "b")])?;
    put_log(alloc, &mut env, "000004.log", &[])?;
    put_log(alloc, &mut env, "000006.log", &[(3, "a"), (4, "c")])?;
    Ok(env)
}

/// A disk with a table of each pair but the last.
fn with_tables(alloc: Global) -> Result<MemEnv> {
    let mut env = MemEnv::new(alloc);
    put_all(
        alloc,
        &mut env,
        options_of(Setting::Buffer(1)),
        &[("a", "1"), ("b", "22"), ("c", "333"), ("a", "4444")],
    )?;
    Ok(env)
}

#[test]
fn logs_and_tables(rt: HostRuntime) -> Result<()> {
    let alloc = rt.alloc();
    let one = store_of(alloc, &[("a", "1"), ("b", "22"), ("a", "333")])?;
    shows(&rt, alloc, one, Setting::Defaults, "3: a=3 b=2")?;
    shows(
        &rt,
        alloc,
        with_logs(alloc)?,
        Setting::Defaults,
        "4: a=1 b=1 c=1",
    )?;
    shows(
        &rt,
        alloc,
        with_tables(alloc)?,
        Setting::Defaults,
        "4: a=4 b=2 c=3",
    )?;
    let mut empty = MemEnv::new(alloc);
    reopen(alloc, &mut empty, Options::default())?;
    shows(&rt, alloc, empty, Setting::Defaults, "0:")?;
    Ok(())
}

/// Logs that fill more than one memtable, and the options that say how an opening goes on with
/// files.
#[test]
fn settings_of_writers(rt: HostRuntime) -> Result<()> {
    let alloc = rt.alloc();
    let all = [
        Setting::Buffer(1),
        Setting::Reuses(false, false),
        Setting::Reuses(false, true),
        Setting::Reuses(true, false),
        Setting::FileSize(1),
        Setting::MustExist,
    ];
    for setting in &all {
        shows(&rt, alloc, with_logs(alloc)?, *setting, "4: a=1 b=1 c=1")?;
        shows(&rt, alloc, with_tables(alloc)?, *setting, "4: a=4 b=2 c=3")?;
    }
    let (alone, _) = shown_alone(alloc, with_logs(alloc)?, &options_of(Setting::MustBeNew))?;
    assert!(rt; alone?.as_str() == "4: a=1 b=1 c=1");
    Ok(())
}

/// A log that ends badly is read up to there, and those after it are empty.
#[test]
fn torn_logs(rt: HostRuntime) -> Result<()> {
    let alloc = rt.alloc();
    let whole = torn_before(alloc, &[])?;
    shows(&rt, alloc, whole, Setting::Defaults, "2: a=1 b=1")?;
    let damaged = torn_before(alloc, &[(3, "c")])?;
    shows(&rt, alloc, damaged, Setting::Defaults, "Corruption")?;
    Ok(())
}

/// The manifest's last record is torn, or `CURRENT` names none, or a table is missing, or a log
/// begins among earlier numbers.
#[test]
fn damaged_files(rt: HostRuntime) -> Result<()> {
    let alloc = rt.alloc();
    let mut torn = with_tables(alloc)?;
    let size = file_bytes(alloc, &mut torn, "MANIFEST-000001")?.len();
    cut_file(alloc, &mut torn, "MANIFEST-000001", size - 1)?;
    // That record has the table of c, whose log is gone.
    shows(&rt, alloc, torn, Setting::Defaults, "4: a=4 b=2")?;
    let mut nameless = with_tables(alloc)?;
    put_file(alloc, &mut nameless, "CURRENT", b"MANIFEST-x\n")?;
    shows(&rt, alloc, nameless, Setting::Defaults, "Corruption")?;
    let mut missing = with_tables(alloc)?;
    missing.delete("db/000005.ldb")?;
    shows(&rt, alloc, missing, Setting::Defaults, "Corruption")?;
    let mut falling = with_logs(alloc)?;
    put_log(alloc, &mut falling, "000005.log", &[(2, "d")])?;
    shows(&rt, alloc, falling, Setting::Defaults, "Corruption")?;
    let mut misnamed = with_logs(alloc)?;
    put_log(alloc, &mut misnamed, "7.log", &[])?;
    shows(&rt, alloc, misnamed, Setting::Defaults, "Corruption")?;
    Ok(())
}

/// Whether a store on this disk isn't opened to be read, with this code.
fn fails_alone(alloc: Global, env: MemEnv, setting: Setting, code: StatusCode) -> Result<bool> {
    let (alone, _) = shown_alone(alloc, env, &options_of(setting))?;
    failed_with(alone, code)
}

/// Where there is no store, none is made: in no folder, in an empty one, and beside tables and
/// logs.
#[test]
fn no_store(rt: HostRuntime) -> Result<()> {
    let alloc = rt.alloc();
    let code = StatusCode::InvalidArgument;
    for setting in &[Setting::Defaults, Setting::MustExist, Setting::MustBeNew] {
        assert!(rt; fails_alone(alloc, MemEnv::new(alloc), *setting, code)?);
        let mut locked = MemEnv::new(alloc);
        put_file(alloc, &mut locked, "LOCK", b"")?;
        assert!(rt; fails_alone(alloc, locked, *setting, code)?);
        let mut without = with_tables(alloc)?;
        without.delete("db/CURRENT")?;
        assert!(rt; fails_alone(alloc, without, *setting, code)?);
    }
    Ok(())
}

/// A store whose manifest names another comparator isn't opened.
#[test]
fn other_comparator(rt: HostRuntime) -> Result<()> {
    let alloc = rt.alloc();
    let mut env = MemEnv::new(alloc);
    reopen(alloc, &mut env, Options::default())?;
    let mut edit = VersionEdit::new(alloc);
    edit.set_comparator_name("other")?;
    edit.set_log_num(0);
    edit.set_next_file(9);
    edit.set_last_seq(0);
    let mut writer = LogWriter::new(alloc, Vec::new(alloc));
    writer.add_record(edit.encode(alloc)?.as_slice())?;
    put_file(alloc, &mut env, "MANIFEST-000001", &writer.sink)?;
    shows(&rt, alloc, env, Setting::Defaults, "InvalidArgument")
}

/// A store that an engine has open and locked is read as its files are, and as they are later by
/// another opening. A store that is read alone is broken, and its calls that write make none of the
/// device.
#[test]
fn beside_a_writer(rt: HostRuntime) -> Result<()> {
    let alloc = rt.alloc();
    let mut env = with_tables(alloc)?;
    let mut engine = Engine::open(alloc, STORE, &mut env, options_of(Setting::Defaults))?;
    let (before, env) = shown_alone(alloc, env, &options_of(Setting::Defaults))?;
    let mut env = env;
    assert!(rt; before?.as_str() == "4: a=4 b=2 c=3");
    engine.put(&mut env, b"d", b"")?;
    let (after, env) = shown_alone(alloc, env, &options_of(Setting::Defaults))?;
    let mut env = env;
    assert!(rt; after?.as_str() == "5: a=4 b=2 c=3 d=0");
    engine.abandon(&mut env)?;
    let mut alone = OnlyReads::of(env);
    let options = options_of(Setting::Defaults);
    let mut store = OpenStore::open_to_read(alloc, &mut alone, STORE, &options)?;
    assert!(rt; store.is_broken());
    assert!(rt; failed_with(store.sync(&mut alone), StatusCode::IOError)?);
    let mut tables = TableCache::new(alloc, STORE, &options)?;
    store.tidy_up(&mut alone, &mut tables, &mut None)?;
    assert!(rt; alone.rule.refused == 0);
    Ok(())
}

/// Logs of several blocks, each perhaps cut or damaged, one after another: read alone they are what
/// an opening finds, also where a read gives 1 to 9 bytes.
#[test]
fn random_logs(rt: HostRuntime) -> Result<()> {
    let alloc = rt.alloc();
    let mut random = Random(17);
    let mut refused = 0;
    for round in 0..9 {
        let mut envs = (MemEnv::new(alloc), MemEnv::new(alloc));
        reopen(alloc, &mut envs.0, Options::default())?;
        reopen(alloc, &mut envs.1, Options::default())?;
        let mut next = 1;
        for name in &["000003.log", "000004.log", "000007.log"] {
            let batches = random.below(8);
            let (mut log, then) = random_log_from(alloc, &mut random, batches, 4, next)?;
            next = then;
            if random.below(3) == 0 {
                damage(&mut log, &mut random);
            }
            put_file(alloc, &mut envs.0, name, &log)?;
            put_file(alloc, &mut envs.1, name, &log)?;
        }
        let setting = [
            Setting::Defaults,
            Setting::Buffer(250),
            Setting::Buffer(8_000),
        ][round % 3];
        let whole = shown_both_ways(&rt, alloc, envs.0, setting)?;
        let few = shown_both_ways(&rt, alloc, ShortReads::new(envs.1), setting)?;
        assert!(rt;
            whole == few,
            "round {round}: {whole}, and over short reads {few}"
        );
        if whole.as_str() == "Corruption" {
            refused += 1;
        }
    }
    assert!(rt; refused > 0 && refused < 9, "{refused} of 9 are damaged");
    Ok(())
}

//! Engines that only read: they show what an opening finds then, and make no call of the device but
//! reads.
use super::acts::{Act, Setting, change, options_of};
use super::stores::{
    DefaultOptions, STORE, files_of, has_files, one_byte, opened, opened_db, put_all, reopen,
    reusing, store_of, text_of,
};
use leveldb_base::cmp::DefaultCmp;
use leveldb_base::error::{Result, StatusCode};
use leveldb_disks::mem_env::{MemEnv, Pick, RecordEnv};
use leveldb_env::env::Env;
use leveldb_env::filter::BloomPolicy;
use leveldb_env::options::Options;
use leveldb_mem::log::LogWriter;
use rusty_leveldb::db_impl::{ReadOnlyEngine, open_read_only};
use rusty_leveldb::shell::{Command, Item, Move, Reply, Step, run_read_only};
use rusty_leveldb::{DB, DBIterator};
use std::alloc::Global;
use std::process::Abort;
use support::{OnlyReads, ShortReads, damage_file, failed_with, file_bytes, put_file};

type Pairs<'a, E> = DBIterator<'a, E, DefaultCmp, BloomPolicy>;

/// A text of the pairs that an iterator is over.
fn pairs_in<E: Env>(alloc: Global, it: &mut Pairs<'_, E>) -> Result<String> {
    let mut text = String::new(alloc);
    while it.advance()? {
        if let Some((key, value)) = it.current() {
            let key = text_of(alloc, key)?;
            let value = text_of(alloc, value)?;
            text.push_str(&format!(in alloc; "{key}={value} ")?)?;
        }
    }
    Ok(text)
}

/// What a store shows that is read alone, over a device that is asked for nothing but reads.
fn shown_alone<E: Env + Drop>(
    rt: &impl Abort,
    alloc: Global,
    env: E,
    setting: Setting,
) -> Result<(String, E)> {
    let mut env = env;
    let before = files_of(alloc, &mut env)?;
    let mut reads = OnlyReads::of(env);
    let mut store = ReadOnlyEngine::open(alloc, STORE, &mut reads, options_of(setting))?;
    let mut it = store.new_iter(&mut reads)?;
    let text = pairs_in(alloc, &mut it)?;
    drop(it);
    assert!(rt; reads.rule.refused == 0);
    let mut env = reads.env;
    assert!(rt; has_files(alloc, &mut env, before.as_str())?);
    Ok((text, env))
}

/// What an opening finds then.
fn found_by_opening<E: Env>(alloc: Global, env: &mut E, setting: Setting) -> Result<String> {
    let mut db = DB::open(alloc, STORE, env, options_of(setting))?;
    let mut it = db.new_iter()?;
    let text = pairs_in(alloc, &mut it)?;
    drop(it);
    db.close()?;
    Ok(text)
}

/// What is done to a store, how it is opened then, alone first, and what it shows.
type Case = (&'static [Act], Setting, &'static str);

const CASES: [Case; 13] = [
    (&[Act::Open(Setting::Defaults)], Setting::Defaults, ""),
    (
        &[Act::Put(Setting::Defaults, &[("b", "1"), ("a", "2"), ("b", "3")])],
        Setting::Defaults,
        "a=2 b=3 ",
    ),
    // A store that is there may be there, and a missing one wouldn't be made.
    (
        &[Act::Put(Setting::Defaults, &[("a", "1")])],
        Setting::MustExist,
        "a=1 ",
    ),
    // A torn log.
    (
        &[
            Act::Put(Setting::Defaults, &[("a", "1"), ("b", "2")]),
            Act::Cut("000003.log", 47),
        ],
        Setting::Defaults,
        "a=1 ",
    ),
    // An empty log after a torn one.
    (
        &[
            Act::Put(Setting::Defaults, &[("a", "1"), ("b", "2")]),
            Act::Cut("000003.log", 47),
            Act::Log("000004.log", &[]),
        ],
        Setting::Defaults,
        "a=1 ",
    ),
    // Several logs.
    (
        &[
            Act::Put(Setting::Defaults, &[("a", "1")]),
            Act::Log("000004.log", &[(2, "b"), (3, "a")]),
            Act::Log("000006.log", &[(5, "c")]),
        ],
        Setting::Defaults,
        "a=v b=v c=v ",
    ),
    // Logs for more than one memtable.
    (
        &[Act::Put(
            Setting::Defaults,
            &[("a", "1"), ("b", "2"), ("c", "3"), ("d", "4"), ("a", "5")],
        )],
        Setting::Buffer(250),
        "a=5 b=2 c=3 d=4 ",
    ),
    (
        &[Act::Put(Setting::Defaults, &[("a", "1"), ("b", "2")])],
        Setting::Buffer(1),
        "a=1 b=2 ",
    ),
    // Tables, and a log beside them.
    (
        &[
            Act::Put(Setting::Defaults, &[("a", "1"), ("c", "2")]),
            Act::Open(Setting::Reuses(false, true)),
            Act::Put(Setting::Reuses(false, true), &[("b", "3"), ("a", "4")]),
        ],
        Setting::Defaults,
        "a=4 b=3 c=2 ",
    ),
    (
        &[
            Act::Put(Setting::Buffer(250), &[("a", "1"), ("b", "2"), ("c", "3")]),
            Act::Put(Setting::Buffer(250), &[("d", "4"), ("b", "5"), ("e", "6")]),
        ],
        Setting::Buffer(250),
        "a=1 b=5 c=3 d=4 e=6 ",
    ),
    // The manifest wouldn't be used on, nor would the log.
    (
        &[Act::Put(Setting::Defaults, &[("a", "1")])],
        Setting::Reuses(false, false),
        "a=1 ",
    ),
    (
        &[Act::Put(Setting::Defaults, &[("a", "1")])],
        Setting::FileSize(1),
        "a=1 ",
    ),
    // Files that an opening would delete.
    (
        &[
            Act::Put(Setting::Defaults, &[("a", "1")]),
            Act::Open(Setting::Reuses(false, true)),
            Act::Make("000002.log", b"x"),
            Act::Make("000090.ldb", b"x"),
            Act::Make("MANIFEST-000099", b"x"),
            Act::Make("000007.dbtmp", b"x"),
        ],
        Setting::Defaults,
        "a=1 ",
    ),
];

/// What a store of a case shows alone, and what it shows when it is opened then.
fn show_case<E: Env + Drop>(rt: &impl Abort, alloc: Global, mut env: E, case: &Case) -> Result<()> {
    let (acts, setting, wanted) = case;
    for act in *acts {
        change(alloc, &mut env, act)?;
    }
    let (alone, mut env) = shown_alone(rt, alloc, env, *setting)?;
    assert!(rt; alone.as_str() == *wanted, "alone {alone}, wanted {wanted}");
    let found = found_by_opening(alloc, &mut env, *setting)?;
    assert!(rt; found.as_str() == *wanted, "found {found}, wanted {wanted}");
    Ok(())
}

#[test]
fn what_an_opening_finds(rt: HostRuntime) -> Result<()> {
    let alloc = rt.alloc();
    for case in &CASES {
        show_case(&rt, alloc, MemEnv::new(alloc), case)?;
        show_case(&rt, alloc, ShortReads::new(MemEnv::new(alloc)), case)?;
    }
    Ok(())
}

// ---- a store that is in use

/// A crash leaves a torn batch at the end of the log: reading alone leaves it there.
#[test]
fn a_torn_batch_stays(rt: HostRuntime) -> Result<()> {
    let alloc = rt.alloc();
    let mut env = store_of(alloc, &[("a", "1"), ("b", "2"), ("c", "3")])?;
    damage_file(alloc, &mut env, "000003.log", 71)?;
    let (alone, mut env) = shown_alone(&rt, alloc, env, Setting::Defaults)?;
    assert!(rt; alone.as_str() == "a=1 b=2 ");
    assert!(rt; env.size_of("db/000003.log")? == 72);
    let found = found_by_opening(alloc, &mut env, Setting::Defaults)?;
    assert!(rt; found.as_str() == "a=1 b=2 ");
    Ok(())
}

/// Whether an opening fails since the lock is held.
fn is_locked<E: Env>(alloc: Global, env: &mut E) -> Result<bool> {
    failed_with(
        opened(alloc, env, Options::default()),
        StatusCode::LockError,
    )
}

/// Puts a pair in a store that is dropped with its lock.
fn put_and_drop<E: Env>(alloc: Global, env: &mut E) -> Result<()> {
    let mut db = opened_db(alloc, env, Options::default())?;
    db.put(b"a", b"1")
}

#[test]
fn a_locked_store(rt: HostRuntime) -> Result<()> {
    let alloc = rt.alloc();
    let mut env = MemEnv::new(alloc);
    put_and_drop(alloc, &mut env)?;
    assert!(rt; is_locked(alloc, &mut env)?);
    let (alone, mut env) = shown_alone(&rt, alloc, env, Setting::Defaults)?;
    assert!(rt; alone.as_str() == "a=1 ");
    assert!(rt; is_locked(alloc, &mut env)?);
    Ok(())
}

/// It shows what was there when it was opened, however the store is written on.
#[test]
fn a_store_that_is_written_on(rt: HostRuntime) -> Result<()> {
    let alloc = rt.alloc();
    let mut env = MemEnv::new(alloc);
    let mut engine = opened(alloc, &mut env, Options::default())?;
    engine.put(&mut env, b"a", b"1")?;
    let mut alone = ReadOnlyEngine::open(alloc, STORE, &mut env, DefaultOptions::default())?;
    engine.put(&mut env, b"a", b"2")?;
    engine.put(&mut env, b"b", b"3")?;
    assert!(rt; one_byte(alone.get(&mut env, b"a")?) == b'1');
    assert!(rt; one_byte(alone.get(&mut env, b"b")?) == b'-');
    let (later, mut env) = shown_alone(&rt, alloc, env, Setting::Defaults)?;
    assert!(rt; later.as_str() == "a=2 b=3 ");
    engine.close(&mut env)
}

// ---- crashes and failures

fn put_and_close(alloc: Global, env: &mut RecordEnv) -> Result<()> {
    let mut engine = opened(alloc, env, Options::default())?;
    engine.put(env, b"k", b"1")?;
    engine.close(env)
}

/// Whether a crash at this moment leaves two manifests of which `CURRENT` names the first. The
/// store shows its pair, alone and then opened.
fn has_two_manifests(rt: &impl Abort, alloc: Global, env: &RecordEnv, moment: u64) -> Result<bool> {
    let pick = Pick {
        tails: Vec::new(alloc),
        after: false,
    };
    let left = env.disk_at(alloc, moment, &pick)?;
    let (alone, mut left) = shown_alone(rt, alloc, left, Setting::Defaults)?;
    assert!(rt; alone.as_str() == "k=1 ", "moment {moment}");
    let is_between = left.exists("db/MANIFEST-000004")?
        && file_bytes(alloc, &mut left, "CURRENT")?.as_slice() == b"MANIFEST-000001\n".as_slice();
    let found = found_by_opening(alloc, &mut left, Setting::Defaults)?;
    assert!(rt; found.as_str() == "k=1 ", "moment {moment}");
    Ok(is_between)
}

#[test]
fn a_manifest_that_is_not_in_use_yet(rt: HostRuntime) -> Result<()> {
    let alloc = rt.alloc();
    let mut env = RecordEnv::new(alloc);
    put_and_close(alloc, &mut env)?;
    let from = env.moment();
    reopen(alloc, &mut env, reusing(true, false))?;
    let mut between = 0_usize;
    for moment in from..=env.moment() {
        if has_two_manifests(&rt, alloc, &env, moment)? {
            between += 1;
        }
    }
    assert!(rt; between > 2, "{between}");
    Ok(())
}

/// Reads a store alone with one call of the device failing, and returns whether all went through.
fn read_failing(rt: &impl Abort, alloc: Global, nth: u64) -> Result<bool> {
    let mut env = RecordEnv::new(alloc);
    put_and_close(alloc, &mut env)?;
    reopen(alloc, &mut env, reusing(false, true))?;
    let before = files_of(alloc, &mut env)?;
    env.fail(nth, false);
    let is_read = match open_read_only(alloc, STORE, &mut env, DefaultOptions::default()) {
        Err(status) => {
            assert!(rt; matches!(status.code, StatusCode::IOError | StatusCode::OutOfMemory));
            false
        }
        Ok(db) => {
            let mut db = db;
            match db.get(b"k") {
                Ok(value) => one_byte(value) == b'1',
                Err(status) => {
                    assert!(rt;
                        matches!(status.code, StatusCode::IOError | StatusCode::OutOfMemory)
                    );
                    false
                }
            }
        }
    };
    env.fail(0, false);
    assert!(rt; has_files(alloc, &mut env, before.as_str())?);
    Ok(is_read)
}

#[test]
fn each_call_of_the_device_fails(rt: HostRuntime) -> Result<()> {
    let mut nth = 1;
    while !read_failing(&rt, rt.alloc(), nth)? {
        nth += 1;
    }
    assert!(rt; nth > 10 && nth < 100, "{nth}");
    Ok(())
}

// ---- what isn't read

/// An opening alone fails with this code, and asks for nothing but reads.
fn fails_alone(
    rt: &impl Abort,
    alloc: Global,
    env: MemEnv,
    setting: Setting,
    code: StatusCode,
) -> Result<MemEnv> {
    let mut reads = OnlyReads::of(env);
    let opened = ReadOnlyEngine::open(alloc, STORE, &mut reads, options_of(setting));
    assert!(rt; failed_with(opened, code)?);
    assert!(rt; reads.rule.refused == 0);
    Ok(reads.env)
}

#[test]
fn a_missing_store(rt: HostRuntime) -> Result<()> {
    let alloc = rt.alloc();
    let code = StatusCode::InvalidArgument;
    let mut env = MemEnv::new(alloc);
    for setting in [Setting::Defaults, Setting::MustExist, Setting::MustBeNew] {
        env = fails_alone(&rt, alloc, env, setting, code)?;
    }
    assert!(rt; env.children(alloc, STORE)?.is_empty());
    // A table without `CURRENT` is no store.
    put_file(alloc, &mut env, "000005.ldb", b"x")?;
    let mut env = fails_alone(&rt, alloc, env, Setting::Defaults, code)?;
    assert!(rt; has_files(alloc, &mut env, "000005.ldb:1 ")?);
    Ok(())
}

/// A store that is there may be there, whatever the options say.
#[test]
fn a_store_that_must_be_new(rt: HostRuntime) -> Result<()> {
    let alloc = rt.alloc();
    let env = store_of(alloc, &[("a", "1")])?;
    let (alone, _env) = shown_alone(&rt, alloc, env, Setting::MustBeNew)?;
    assert!(rt; alone.as_str() == "a=1 ");
    Ok(())
}

/// A manifest of this one record is the store's.
fn put_manifest(alloc: Global, env: &mut MemEnv, record: &[u8]) -> Result<()> {
    let mut writer = LogWriter::new(alloc, Vec::new(alloc));
    writer.add_record(record)?;
    put_file(alloc, env, "MANIFEST-000001", writer.sink.as_slice())?;
    put_file(alloc, env, "CURRENT", b"MANIFEST-000001\n")
}

#[test]
fn a_store_of_another_order(rt: HostRuntime) -> Result<()> {
    let alloc = rt.alloc();
    let mut env = MemEnv::new(alloc);
    put_manifest(alloc, &mut env, b"\x01\x0aother.Cmp1\x02\0\x03\x02\x04\0")?;
    let code = StatusCode::InvalidArgument;
    fails_alone(&rt, alloc, env, Setting::Defaults, code)?;
    Ok(())
}

/// A store of one table, and of one log.
fn store_with_a_table(alloc: Global) -> Result<MemEnv> {
    let mut env = store_of(alloc, &[("a", "1")])?;
    put_all(alloc, &mut env, reusing(false, true), &[("b", "2")])?;
    Ok(env)
}

#[test]
fn damage(rt: HostRuntime) -> Result<()> {
    let alloc = rt.alloc();
    let code = StatusCode::Corruption;
    let mut env = store_with_a_table(alloc)?;
    env.delete("db/000004.ldb")?;
    fails_alone(&rt, alloc, env, Setting::Defaults, code)?;
    let mut env = store_with_a_table(alloc)?;
    put_file(alloc, &mut env, "CURRENT", b"MANIFEST-1\n")?;
    fails_alone(&rt, alloc, env, Setting::Defaults, code)?;
    // A log after one that ends badly has a byte.
    let mut env = store_of(alloc, &[("a", "1"), ("b", "2")])?;
    change(alloc, &mut env, &Act::Cut("000003.log", 47))?;
    change(alloc, &mut env, &Act::Log("000004.log", &[(3, "c")]))?;
    fails_alone(&rt, alloc, env, Setting::Defaults, code)?;
    Ok(())
}

#[test]
fn names_that_are_no_stores(rt: HostRuntime) -> Result<()> {
    let alloc = rt.alloc();
    let mut env = store_of(alloc, &[("a", "1")])?;
    for name in &["", "db/"] {
        let opened = ReadOnlyEngine::open(alloc, name, &mut env, DefaultOptions::default());
        assert!(rt; failed_with(opened, StatusCode::InvalidArgument)?);
    }
    let mut options = DefaultOptions::default();
    options.block_size = 0;
    let opened = ReadOnlyEngine::open(alloc, STORE, &mut env, options);
    assert!(rt; failed_with(opened, StatusCode::InvalidArgument)?);
    Ok(())
}

// ---- calls

/// Whether a pair of a key and a value of one byte each is this text, with `=` between them.
fn is_pair(key: &[u8], value: &[u8], wanted: &str) -> bool {
    matches!((key, value, wanted.as_bytes()), ([key], [value], [a, b'=', b]) if key == a && value == b)
}

#[test]
fn look_ups_walks_and_iterators(rt: HostRuntime) -> Result<()> {
    let alloc = rt.alloc();
    let mut env = store_with_a_table(alloc)?;
    let mut db = open_read_only(alloc, STORE, &mut env, DefaultOptions::default())?;
    assert!(rt; one_byte(db.get(b"a")?) == b'1');
    assert!(rt; one_byte(db.get(b"b")?) == b'2');
    assert!(rt; one_byte(db.get(b"c")?) == b'-');
    let mut steps = Vec::new(alloc);
    db.walk(
        &[Move::First, Move::Next, Move::Next, Move::Prev],
        &mut steps,
    )?;
    assert!(rt;
        matches!(steps.as_slice(), [
        Step::At(a, one),
        Step::At(b, two),
        Step::Invalid,
        Step::Invalid,
    ] if is_pair(a, one, "a=1") && is_pair(b, two, "b=2"))
    );
    let mut it = db.new_iter()?;
    it.seek(b"aa")?;
    assert!(rt; it.current().is_some_and(|pair| pair.0 == b"b".as_slice()));
    assert!(rt; it.prev()?);
    assert!(rt; it.current().is_some_and(|pair| pair.0 == b"a".as_slice()));
    Ok(())
}

#[test]
fn keys_that_are_too_long(rt: HostRuntime) -> Result<()> {
    let alloc = rt.alloc();
    let mut env = store_of(alloc, &[("a", "1")])?;
    let mut db = open_read_only(alloc, STORE, &mut env, DefaultOptions::default())?;
    let mut pages = Vec::new(alloc);
    pages.resize((1 << 18) + 1, [0_u8; 4096])?;
    let long = &pages.as_flattened()[..(1 << 30) + 1];
    assert!(rt; failed_with(db.get(long), StatusCode::InvalidArgument)?);
    assert!(rt; one_byte(db.get(b"a")?) == b'1');
    Ok(())
}

fn bytes_of(alloc: Global, text: &str) -> Result<Vec<u8>> {
    Ok(Vec::from_slice(alloc, text.as_bytes())?)
}

/// Commands that aren't for a store that is read alone.
fn other_commands(alloc: Global) -> Result<Vec<Command>> {
    let mut items = Vec::new(alloc);
    items.push(Item::Delete(bytes_of(alloc, "a")?))?;
    let mut commands = Vec::new(alloc);
    commands.push(Command::Put(bytes_of(alloc, "a")?, bytes_of(alloc, "2")?))?;
    commands.push(Command::Delete(bytes_of(alloc, "a")?))?;
    commands.push(Command::Write { sync: true, items })?;
    commands.push(Command::Snap)?;
    commands.push(Command::GetAt(0, bytes_of(alloc, "a")?))?;
    commands.push(Command::Release(0))?;
    commands.push(Command::Walk(Some(0), Vec::new(alloc)))?;
    commands.push(Command::Compact(Vec::new(alloc), Vec::new(alloc)))?;
    commands.push(Command::Flush)?;
    commands.push(Command::Close)?;
    Ok(commands)
}

/// The other commands, and at their end a look-up and a walk.
fn all_commands(alloc: Global) -> Result<Vec<Command>> {
    let mut commands = other_commands(alloc)?;
    commands.push(Command::Get(bytes_of(alloc, "a")?))?;
    let mut moves = Vec::new(alloc);
    moves.push(Move::Next)?;
    commands.push(Command::Walk(None, moves))?;
    Ok(commands)
}

fn is_refused(reply: &Reply) -> bool {
    matches!(reply, Reply::Refused(status) if status.code == StatusCode::InvalidArgument)
}

#[test]
fn commands(rt: HostRuntime) -> Result<()> {
    let alloc = rt.alloc();
    let mut env = store_of(alloc, &[("a", "1")])?;
    let before = files_of(alloc, &mut env)?;
    let mut replies = Vec::new(alloc);
    let mut reads = OnlyReads::of(env);
    run_read_only(
        &mut reads,
        STORE,
        DefaultOptions::default(),
        &all_commands(alloc)?,
        &mut replies,
    )?;
    assert!(rt; reads.rule.refused == 0);
    let (others, answered) = replies.split_at(other_commands(alloc)?.len());
    assert!(rt; others.iter().all(is_refused));
    assert!(rt;
        matches!(answered, [Reply::Value(value), Reply::Walk(steps)]
        if value.as_slice() == b"1".as_slice()
            && matches!(steps.as_slice(), [Step::At(key, value)] if is_pair(key, value, "a=1")))
    );
    assert!(rt; has_files(alloc, &mut reads.env, before.as_str())?);
    Ok(())
}

//! Batches one after another: what is then found, and the numbers in the log.
use super::stores::opened;
use leveldb_base::cmp::DefaultCmp;
use leveldb_base::error::{Result, StatusCode};
use leveldb_base::key_types::ValueType;
use leveldb_base::types::{Lookup, MAX_SEQUENCE_NUMBER, SequenceNumber};
use leveldb_env::env::Env;
use leveldb_env::filter::BloomPolicy;
use leveldb_env::mem_env::MemEnv;
use leveldb_env::options::Options;
use leveldb_mem::log::{LogWriter, read_log_file};
use leveldb_mem::memtable::MemTable;
use leveldb_mem::write_batch::WriteBatch;
use rusty_leveldb::db_impl::Engine;
use std::alloc::Global;
use std::process::Abort;
use support::answered;

/// The first log.
const LOG: &str = "db/000003.log";

type Change = (&'static [u8], Option<&'static [u8]>);

/// The changes of a batch, the code that its write returns, and for some keys the value that is
/// then found, or none.
type Step = (&'static [Change], StatusCode, &'static [Change]);

/// Later changes win over earlier ones, of the same batch too; an empty batch changes nothing.
const WINS: [Step; 4] = [
    (
        &[(b"k", Some(b"1")), (b"a", None), (b"k", Some(b"2"))],
        StatusCode::OK,
        &[(b"k", Some(b"2")), (b"a", None)],
    ),
    (&[], StatusCode::OK, &[(b"k", Some(b"2")), (b"a", None)]),
    (
        &[(b"k", None), (b"z", Some(b"3"))],
        StatusCode::OK,
        &[(b"k", None), (b"a", None), (b"z", Some(b"3")), (b"b", None)],
    ),
    (&[], StatusCode::OK, &[(b"k", None), (b"z", Some(b"3"))]),
];

/// After k with the value 1, when two numbers are left. A write that fails leaves all as it was.
const RUNS_OUT: [Step; 4] = [
    (
        &[(b"k", None), (b"a", Some(b"2")), (b"z", Some(b"2"))],
        StatusCode::NotSupported,
        &[(b"k", Some(b"1")), (b"a", None), (b"z", None)],
    ),
    (&[], StatusCode::OK, &[(b"k", Some(b"1")), (b"z", None)]),
    (
        &[(b"k", None), (b"z", Some(b"3"))],
        StatusCode::OK,
        &[(b"k", None), (b"a", None), (b"z", Some(b"3"))],
    ),
    (
        &[(b"z", Some(b"4"))],
        StatusCode::NotSupported,
        &[(b"k", None), (b"z", Some(b"3"))],
    ),
];

/// The changes as one batch.
fn batch_of(alloc: Global, changes: &[Change]) -> Result<WriteBatch> {
    let mut batch = WriteBatch::new(alloc)?;
    for (key, value) in changes {
        match value {
            None => batch.delete(key)?,
            Some(value) => batch.put(key, value)?,
        }
    }
    Ok(batch)
}

/// What a status has as its code, or `OK`.
fn code_of(answer: Result<()>) -> StatusCode {
    match answer {
        Ok(()) => StatusCode::OK,
        Err(status) => status.code,
    }
}

fn assert_found(
    rt: &impl Abort,
    env: &mut MemEnv,
    engine: &mut Engine<MemEnv, DefaultCmp, BloomPolicy>,
    rows: &[Change],
) -> Result<()> {
    for (key, wanted) in rows {
        let value = engine.get(env, key)?;
        let found = match &value {
            None => None,
            Some(value) => Some(value.as_slice()),
        };
        assert!(rt; found == *wanted);
    }
    Ok(())
}

fn write_one(
    rt: &impl Abort,
    alloc: Global,
    env: &mut MemEnv,
    engine: &mut Engine<MemEnv, DefaultCmp, BloomPolicy>,
    step: &Step,
) -> Result<()> {
    let batch = batch_of(alloc, step.0)?;
    let answer = answered(engine.write(env, batch, false))?;
    assert!(rt; code_of(answer) == step.1);
    assert_found(rt, env, engine, step.2)
}

/// Gives a store these batches, one after another.
fn write_all(rt: &impl Abort, alloc: Global, env: &mut MemEnv, steps: &[Step]) -> Result<()> {
    let mut engine = opened(alloc, env, Options::default())?;
    for step in steps {
        write_one(rt, alloc, env, &mut engine, step)?;
    }
    engine.abandon(env)
}

/// Makes a store whose one batch begins at this number.
fn put_log(
    alloc: Global,
    env: &mut MemEnv,
    first: SequenceNumber,
    changes: &[Change],
) -> Result<()> {
    Engine::open(alloc, "db", env, Options::default())?.abandon(env)?;
    let mut batch = batch_of(alloc, changes)?;
    batch.set_sequence(first);
    let mut writer = LogWriter::new(alloc, Vec::new(alloc));
    writer.add_record(batch.contents())?;
    let mut file = env.open_writable_file(LOG)?;
    env.append(&mut file, &writer.sink)
}

/// The batches in the log.
fn logged(alloc: Global, env: &mut MemEnv) -> Result<Vec<WriteBatch>> {
    let (records, _) = read_log_file(alloc, env, LOG)?;
    let mut batches = Vec::new(alloc);
    for record in &records {
        let mut batch = WriteBatch::new(alloc)?;
        batch.set_contents(record)?;
        batches.push(batch)?;
    }
    Ok(batches)
}

/// The first number of each batch in the log, and how many changes it has.
fn numbers(alloc: Global, env: &mut MemEnv) -> Result<Vec<(SequenceNumber, u32)>> {
    let mut numbers = Vec::new(alloc);
    for batch in &logged(alloc, env)? {
        numbers.push((batch.sequence(), batch.count()))?;
    }
    Ok(numbers)
}

/// Adds the changes of a batch, each at its number.
fn add_batch(rt: &impl Abort, table: &mut MemTable<DefaultCmp>, batch: &WriteBatch) -> Result<()> {
    let mut sequence = batch.sequence();
    for (key, value) in batch.iter() {
        assert!(rt; sequence < 100);
        match value {
            None => table.add(sequence, ValueType::TypeDeletion, key, b"")?,
            Some(value) => table.add(sequence, ValueType::TypeValue, key, value)?,
        }
        sequence += 1;
    }
    Ok(())
}

/// The entries in the log, each at its number.
fn entries(rt: &impl Abort, alloc: Global, env: &mut MemEnv) -> Result<MemTable<DefaultCmp>> {
    let mut table = MemTable::new(alloc, DefaultCmp);
    for batch in &logged(alloc, env)? {
        add_batch(rt, &mut table, batch)?;
    }
    Ok(table)
}

/// A key, a number, and what its newest entry at or below it says.
type Look = (&'static [u8], SequenceNumber, Lookup<&'static [u8]>);

const NEWEST: [Look; 9] = [
    (b"k", 0, Lookup::Absent),
    (b"k", 1, Lookup::Value(b"1")),
    (b"k", 2, Lookup::Value(b"1")),
    (b"k", 3, Lookup::Value(b"2")),
    (b"k", 5, Lookup::Deleted),
    (b"a", 5, Lookup::Deleted),
    (b"z", 5, Lookup::Value(b"3")),
    (b"z", 4, Lookup::Absent),
    (b"b", 5, Lookup::Absent),
];

fn assert_newest(rt: &impl Abort, table: &MemTable<DefaultCmp>) {
    for (key, sequence, wanted) in &NEWEST {
        assert!(rt; *sequence < 100);
        assert!(rt;
            table.newest(key, *sequence) == *wanted,
            "{key:?} at {sequence}"
        );
    }
}

/// An empty batch takes no number. The log has each change at its number, and a deletion is an
/// entry like any other.
#[test]
fn later_changes_win(rt: HostRuntime) -> Result<()> {
    let alloc = rt.alloc();
    let mut env = MemEnv::new(alloc);
    write_all(&rt, alloc, &mut env, &WINS)?;
    let found = numbers(alloc, &mut env)?;
    assert!(rt; found.as_slice() == [(1, 3), (4, 0), (4, 2), (6, 0)].as_slice());
    assert_newest(&rt, &entries(&rt, alloc, &mut env)?);
    Ok(())
}

/// The last number of all is given, and none after it.
#[test]
fn numbers_run_out(rt: HostRuntime) -> Result<()> {
    let alloc = rt.alloc();
    let mut env = MemEnv::new(alloc);
    let last = MAX_SEQUENCE_NUMBER - 2;
    put_log(alloc, &mut env, last, &[(b"k", Some(b"1"))])?;
    write_all(&rt, alloc, &mut env, &RUNS_OUT)?;
    let found = numbers(alloc, &mut env)?;
    assert!(rt; found.as_slice() == [(last, 1), (last + 1, 0), (last + 1, 2)].as_slice());
    Ok(())
}

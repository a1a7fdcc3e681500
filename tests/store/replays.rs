//! Logs that openings replay, a piece at a time: long ones, torn and damaged ones, over reads of
//! few bytes and reads that fail.
use super::acts::{Setting, fails, options_of};
use super::stores::{STORE, files_of, reopen};
use leveldb_base::cmp::DefaultCmp;
use leveldb_base::error::{Result, StatusCode};
use leveldb_disks::mem_env::{MemEnv, RecordEnv};
use leveldb_env::env::Env;
use leveldb_env::options::Options;
use leveldb_mem::log::LogWriter;
use leveldb_mem::write_batch::WriteBatch;
use slow_store::read_store;
use std::alloc::Global;
use std::process::Abort;
use support::{Random, ShortReads, answered, failed_with, put_file};

/// The log of a new store.
const LOG: &str = "000003.log";

/// Lengths of values: records within a block, up to its end, and over several.
const LENGTHS: &[usize] = &[0, 1, 20, 300, 7_000, 32_700, 33_000, 70_000];

/// A batch of one or two puts from this number on, whose values have the first of these lengths, so
/// many of them.
fn random_batch(
    alloc: Global,
    random: &mut Random,
    sequence: u64,
    lengths: u64,
) -> Result<WriteBatch> {
    let mut batch = WriteBatch::new(alloc)?;
    for _ in 0..=random.below(2) {
        let key = format!(in alloc; "{}", random.below(40))?;
        let length = LENGTHS[random.below(lengths) as usize];
        let mut value = Vec::new(alloc);
        value.resize(length, random.below(256) as u8)?;
        batch.put(key.as_bytes(), value.as_slice())?;
    }
    batch.set_sequence(sequence);
    Ok(batch)
}

/// The bytes of a log of so many batches from this number on, and the number after them.
pub fn random_log_from(
    alloc: Global,
    random: &mut Random,
    batches: u64,
    lengths: u64,
    first: u64,
) -> Result<(Vec<u8>, u64)> {
    let mut writer = LogWriter::new(alloc, Vec::new(alloc));
    let mut sequence = first;
    for _ in 0..batches {
        let batch = random_batch(alloc, random, sequence, lengths)?;
        sequence += u64::from(batch.count());
        writer.add_record(batch.contents())?;
    }
    Ok((writer.sink, sequence))
}

/// The bytes of a log of so many batches.
fn random_log(alloc: Global, random: &mut Random, batches: u64, lengths: u64) -> Result<Vec<u8>> {
    Ok(random_log_from(alloc, random, batches, lengths, 1)?.0)
}

/// Cuts the bytes, or makes one of them another, or does neither.
pub fn damage(bytes: &mut Vec<u8>, random: &mut Random) {
    let at = random.below(bytes.len() as u64 + 1) as usize;
    match random.below(3) {
        0 => bytes.truncate(at),
        1 if at < bytes.len() => bytes[at] = bytes[at].wrapping_add(1),
        _ => {}
    }
}

/// The number of each key's newest entry that the slow store reads, in order, or none where the
/// files are no store. A compaction may drop the others.
fn numbers_in<E: Env>(alloc: Global, env: &mut E) -> Result<Option<Vec<u64>>> {
    let read = read_store(alloc, env, &DefaultCmp, STORE);
    let Ok(Some(contents)) = answered(read)? else {
        return Ok(None);
    };
    let mut numbers = Vec::new(alloc);
    for entry in &contents.entries {
        let is_newest = contents
            .entries
            .iter()
            .all(|it| it.key != entry.key || it.sequence <= entry.sequence);
        if is_newest {
            numbers.push(entry.sequence)?;
        }
    }
    numbers.sort()?;
    Ok(Some(numbers))
}

/// What an opening leaves: its error, the files, and the entries before and after it.
#[derive(Drop, PartialEq, Eq)]
struct Left {
    code: Option<StatusCode>,
    files: String,
    before: Option<Vec<u64>>,
    after: Option<Vec<u64>>,
}

/// Opens a store with this log.
fn open_over<E: Env>(alloc: Global, env: &mut E, log: &[u8], setting: Setting) -> Result<Left> {
    reopen(alloc, env, Options::default())?;
    put_file(alloc, env, LOG, log)?;
    let before = numbers_in(alloc, env)?;
    let code = match answered(reopen(alloc, env, options_of(setting)))? {
        Ok(()) => None,
        Err(status) => Some(status.code),
    };
    Ok(Left {
        code,
        files: files_of(alloc, env)?,
        before,
        after: numbers_in(alloc, env)?,
    })
}

/// Whatever the log of this many batches at most and of values of these lengths is, an opening
/// leaves what the slow store read before, and the same files where a read gives 1 to 9 bytes.
pub fn open_over_short_reads(
    rt: &impl Abort,
    alloc: Global,
    rounds: usize,
    most: u64,
    lengths: u64,
) -> Result<()> {
    let mut random = Random(63);
    let mut entries = 0;
    for round in 0..rounds {
        let batches = random.below(most + 1);
        let mut log = random_log(alloc, &mut random, batches, lengths)?;
        damage(&mut log, &mut random);
        let setting = [
            Setting::Defaults,
            Setting::Reuses(false, true),
            Setting::Buffer(250),
            Setting::Buffer(50_000),
        ][round % 4];
        let whole = open_over(alloc, &mut MemEnv::new(alloc), &log, setting)?;
        let mut short = ShortReads::new(MemEnv::new(alloc));
        let few = open_over(alloc, &mut short, &log, setting)?;
        assert!(rt; few == whole, "round {round}: other files or contents");
        assert!(rt; whole.code.is_none(), "round {round}: refused");
        assert!(rt;
            whole.after == whole.before,
            "round {round}: entries are lost"
        );
        entries += whole.after.map_or(0, |numbers| numbers.len());
    }
    assert!(rt; entries > rounds, "the logs had few entries");
    Ok(())
}

#[test]
fn logs_over_short_reads(rt: HostRuntime) -> Result<()> {
    open_over_short_reads(&rt, rt.alloc(), 8, 16, 5)
}

/// A record that is no batch, after one that is: the opening fails, and a read of few bytes changes
/// nothing of that.
#[test]
fn record_that_is_no_batch(rt: HostRuntime) -> Result<()> {
    let alloc = rt.alloc();
    let mut writer = LogWriter::new(alloc, Vec::new(alloc));
    writer.add_record(random_batch(alloc, &mut Random(1), 1, 8)?.contents())?;
    writer.add_record(b"no batch")?;
    let whole = open_over(
        alloc,
        &mut MemEnv::new(alloc),
        &writer.sink,
        Setting::Defaults,
    )?;
    let mut short = ShortReads::new(MemEnv::new(alloc));
    let few = open_over(alloc, &mut short, &writer.sink, Setting::Defaults)?;
    assert!(rt; whole.code == Some(StatusCode::Corruption));
    assert!(rt; few == whole);
    assert!(rt; fails(alloc, &mut short, Setting::Defaults, StatusCode::Corruption)?);
    Ok(())
}

/// A device with a store that has a log of several blocks.
fn store_with_log(alloc: Global, log: &[u8]) -> Result<RecordEnv> {
    let mut env = RecordEnv::new(alloc);
    reopen(alloc, &mut env, Options::default())?;
    put_file(alloc, &mut env, LOG, log)?;
    Ok(env)
}

/// Whether an opening whose nth call fails is refused by the device's error and loses no entry, and
/// the next one finds what there was, unless it was the lock that couldn't be given back. None
/// where that call's failure doesn't fail it.
fn refused_at(alloc: Global, log: &[u8], nth: u64, done: bool) -> Result<Option<bool>> {
    let mut env = store_with_log(alloc, log)?;
    let numbers = numbers_in(alloc, &mut env)?;
    env.fail(nth, done);
    let opened = reopen(alloc, &mut env, Options::default());
    if opened.is_ok() {
        return Ok(None);
    }
    let by_device = failed_with(opened, StatusCode::IOError)?;
    let stays = numbers_in(alloc, &mut env)? == numbers;
    env.fail(0, false);
    let again = match answered(reopen(alloc, &mut env, Options::default()))? {
        Ok(()) => true,
        Err(status) => status.code == StatusCode::LockError,
    };
    Ok(Some(by_device && stays && again && numbers_in(alloc, &mut env)? == numbers))
}

/// How many calls an opening makes.
fn count_calls(alloc: Global, log: &[u8]) -> Result<u64> {
    let mut env = store_with_log(alloc, log)?;
    let before = env.moment();
    reopen(alloc, &mut env, Options::default())?;
    Ok((env.moment() - before) / 2)
}

/// One of so many calls of an opening fails once. All reads of the log are among those that fail
/// it.
pub fn fail_reads(rt: &impl Abort, alloc: Global, every: u64) -> Result<()> {
    let log = random_log(alloc, &mut Random(7), 6, 8)?;
    let reads = log.len() as u64 / 4096;
    let calls = count_calls(alloc, &log)?;
    assert!(rt; reads > 20 && calls > reads, "{reads} reads, {calls} calls");
    for done in [false, true] {
        let mut refused = 0;
        for nth in 1..=calls {
            if nth % every != 0 {
                continue;
            }
            if let Some(is_right) = refused_at(alloc, &log, nth, done)? {
                assert!(rt; is_right, "call {nth} of {calls}");
                refused += 1;
            }
        }
        assert!(rt; refused * every > reads, "{refused} of {calls} calls");
    }
    Ok(())
}

#[test]
fn reads_that_fail(rt: HostRuntime) -> Result<()> {
    fail_reads(&rt, rt.alloc(), 7)
}

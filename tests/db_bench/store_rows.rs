//! Rows of the store. Each makes a store of its own.
//!
//! Each function opens the store that it uses: the gate refuses a crate with a function that takes one
//! by `&mut` (docs/index.md says why).
ghost use Rattle.std.specs.Prelude.{◌≡◌, ◌+◌, ◌/◌, ◌<◌, IfOk};

use crate::disks::Disks;
use crate::flags::Scale;
use crate::keys::{Numbers, Values, key_of, missing_key_of};
use crate::report::{Run, Tally, Timer};
use crate::rows::Job;
use leveldb_env::env::Env;
use rusty_leveldb::{BloomPolicy, DB, DefaultCmp, Options, Result, WriteBatch};
use std::alloc::Global;
use std::time::Clock;

/// Sets the keys of the next numbers to their values in the store of this name, and closes it.
pub(crate) fn put_all<K: Clock, E: Env>(
    alloc: Global,
    clock: &K,
    env: &mut E,
    name: &str,
    job: Job,
    mut numbers: Numbers,
) -> Result<Run>
    ensures { IfOk result (λ run. run.outcome.ops ≡ job.scale.num) }
{
    let values = Values::new(alloc, job.scale.value_size)?;
    let mut options = Options::default();
    options.write_buffer_size = job.scale.write_buffer_size;
    options.block_cache_capacity_bytes = job.scale.cache_size;
    let mut db = DB::open(alloc, name, env, options)?;
    let mut tally = Tally::new(job.checked);
    let timer = Timer::start(clock)?;
    for _ in 0..job.scale.num {
        let number = numbers.next_number();
        let key = key_of(number);
        let value = values.value_of(number);
        db.put(&key, value)?;
        tally.see(&key);
        tally.see(value);
    }
    let run = timer.stop(tally.outcome(job.scale.num))?;
    db.close()?;
    Ok(run)
}

// A change of one key.
fn batch_of(alloc: Global, key: &[u8], value: &[u8]) -> Result<WriteBatch> {
    let mut batch = WriteBatch::new(alloc)?;
    batch.put(key, value)?;
    Ok(batch)
}

// The same for so many numbers, each by a synced write.
fn put_all_synced<K: Clock, E: Env>(
    alloc: Global,
    clock: &K,
    env: &mut E,
    name: &str,
    job: Job,
    ops: u64,
) -> Result<Run>
    ensures { IfOk result (λ run. run.outcome.ops ≡ ops) }
{
    let mut numbers = Numbers::random(job.scale.num);
    let values = Values::new(alloc, job.scale.value_size)?;
    let mut options = Options::default();
    options.write_buffer_size = job.scale.write_buffer_size;
    options.block_cache_capacity_bytes = job.scale.cache_size;
    let mut db = DB::open(alloc, name, env, options)?;
    let mut tally = Tally::new(job.checked);
    let timer = Timer::start(clock)?;
    for _ in 0..ops {
        let number = numbers.next_number();
        let key = key_of(number);
        let value = values.value_of(number);
        db.write(batch_of(alloc, &key, value)?, true)?;
        tally.see(&key);
        tally.see(value);
    }
    let run = timer.stop(tally.outcome(ops))?;
    db.close()?;
    Ok(run)
}

// The key between two that are there, or the one before it, which is.
fn sought(key: &[u8; 17], missing: bool) -> &[u8] {
    if missing {
        return key;
    }
    &key[..16]
}

/// Gets the values of keys at random from the store of this name, or of the keys between these, and
/// closes it. The first half of the look-ups isn't timed: it fills the caches.
pub(crate) fn get_all<K: Clock, E: Env>(
    alloc: Global,
    clock: &K,
    env: &mut E,
    name: &str,
    options: Options<DefaultCmp, BloomPolicy>,
    job: Job,
    missing: bool,
) -> Result<Run>
    ensures { IfOk result (λ run. run.outcome.ops ≡ job.scale.num) }
{
    let mut numbers = Numbers::random(job.scale.num);
    let mut db = DB::open(alloc, name, env, options)?;
    let mut tally = Tally::new(job.checked);
    let mut timer = Timer::start(clock)?;
    for turn in 0..2 * job.scale.num {
        if turn == job.scale.num {
            numbers = Numbers::random(job.scale.num);
            tally = Tally::new(job.checked);
            timer = Timer::start(clock)?;
        }
        let key = missing_key_of(numbers.next_number());
        if let Some(value) = db.get(sought(&key, missing))? {
            tally.see(value.as_slice());
        }
    }
    let run = timer.stop(tally.outcome(job.scale.num))?;
    db.close()?;
    Ok(run)
}

// An environment whose store has each key, and is closed.
pub(crate) fn filled<K: Clock, D: Disks>(
    alloc: Global,
    clock: &K,
    disks: &D,
    job: Job,
) -> Result<D::Env> {
    let mut env = disks.empty()?;
    let unchecked = Job {
        checked: false,
        ..job
    };
    let numbers = Numbers::rising(job.scale.num);
    put_all(alloc, clock, &mut env, disks.store(), unchecked, numbers)?;
    Ok(env)
}

/// Sets keys in their order.
pub fn fill_in_order<K: Clock, D: Disks>(
    alloc: Global,
    clock: &K,
    disks: &D,
    job: Job,
) -> Result<Run>
    ensures { IfOk result (λ run. run.outcome.ops ≡ job.scale.num) }
{
    let mut env = disks.empty()?;
    let numbers = Numbers::rising(job.scale.num);
    put_all(alloc, clock, &mut env, disks.store(), job, numbers)
}

/// Sets keys at random.
pub fn fill_at_random<K: Clock, D: Disks>(
    alloc: Global,
    clock: &K,
    disks: &D,
    job: Job,
) -> Result<Run>
    ensures { IfOk result (λ run. run.outcome.ops ≡ job.scale.num) }
{
    let mut env = disks.empty()?;
    let numbers = Numbers::random(job.scale.num);
    put_all(alloc, clock, &mut env, disks.store(), job, numbers)
}

/// Sets keys at random in a store that has each of them.
pub fn overwrite<K: Clock, D: Disks>(alloc: Global, clock: &K, disks: &D, job: Job) -> Result<Run>
    ensures { IfOk result (λ run. run.outcome.ops ≡ job.scale.num) }
{
    let mut env = filled(alloc, clock, disks, job)?;
    let numbers = Numbers::random(job.scale.num);
    put_all(alloc, clock, &mut env, disks.store(), job, numbers)
}

/// Sets keys at random with a sync after each, once for a thousand of `--num`.
pub fn fill_synced<K: Clock, D: Disks>(alloc: Global, clock: &K, disks: &D, job: Job) -> Result<Run>
    ensures { IfOk result (λ run. run.outcome.ops ≡ (job.scale.num + 999) / 1000) }
{
    let ops = (job.scale.num + 999) / 1000;
    let mut env = disks.empty()?;
    put_all_synced(alloc, clock, &mut env, disks.store(), job, ops)
}

/// Gets keys at random from a store that has each of them.
pub fn read_at_random<K: Clock, D: Disks>(
    alloc: Global,
    clock: &K,
    disks: &D,
    job: Job,
) -> Result<Run>
    ensures { IfOk result (λ run. run.outcome.ops ≡ job.scale.num) }
{
    let mut env = filled(alloc, clock, disks, job)?;
    let mut options = Options::default();
    options.write_buffer_size = job.scale.write_buffer_size;
    options.block_cache_capacity_bytes = job.scale.cache_size;
    options.reuse_logs = false;
    get_all(alloc, clock, &mut env, disks.store(), options, job, false)
}

/// Gets keys at random that the store doesn't have, between those that it has.
pub fn read_missing<K: Clock, D: Disks>(
    alloc: Global,
    clock: &K,
    disks: &D,
    job: Job,
) -> Result<Run>
    ensures { IfOk result (λ run. run.outcome.ops ≡ job.scale.num) }
{
    let mut env = filled(alloc, clock, disks, job)?;
    let mut options = Options::default();
    options.write_buffer_size = job.scale.write_buffer_size;
    options.block_cache_capacity_bytes = job.scale.cache_size;
    options.reuse_logs = false;
    get_all(alloc, clock, &mut env, disks.store(), options, job, true)
}

// Opens a store that is there, and closes it.
fn open_and_close<E: Env>(alloc: Global, env: &mut E, name: &str, scale: Scale) -> Result<()> {
    let mut options = Options::default();
    options.write_buffer_size = scale.write_buffer_size;
    options.block_cache_capacity_bytes = scale.cache_size;
    let mut db = DB::open(alloc, name, env, options)?;
    db.close()
}

/// Opens a store that has each key, and closes it, once for ten thousand of `--num`.
pub fn open_again<K: Clock, D: Disks>(alloc: Global, clock: &K, disks: &D, job: Job) -> Result<Run>
    ensures { IfOk result (λ run. run.outcome.ops ≡ (job.scale.num + 9999) / 10000) }
{
    let ops = (job.scale.num + 9999) / 10000;
    let mut env = filled(alloc, clock, disks, job)?;
    let timer = Timer::start(clock)?;
    for _ in 0..ops {
        open_and_close(alloc, &mut env, disks.store(), job.scale)?;
    }
    timer.stop(Tally::new(false).outcome(ops))
}

/// What a row puts in several openings: the keys of the next numbers, with their values.
#[derive(Drop)]
pub(crate) struct Load {
    pub numbers: Numbers,
    pub values: Values,
    pub tally: Tally,
}

impl Load {
    /// Keys at random, of numbers below a limit.
    pub(crate) fn of(alloc: Global, job: Job, below: u64) -> Result<Load>
        requires { 0 < below }
    {
        Ok(Load {
            numbers: Numbers::random(below),
            values: Values::new(alloc, job.scale.value_size)?,
            tally: Tally::new(job.checked),
        })
    }
}

/// Puts the keys of the next numbers in one opening of the store of this name.
pub(crate) fn put_part<E: Env>(
    alloc: Global,
    env: &mut E,
    name: &str,
    options: Options<DefaultCmp, BloomPolicy>,
    load: &mut Load,
    count: u64,
) -> Result<()> {
    let mut db = DB::open(alloc, name, env, options)?;
    for _ in 0..count {
        let number = load.numbers.next_number();
        let key = key_of(number);
        let value = load.values.value_of(number);
        db.put(&key, value)?;
        load.tally.see(&key);
        load.tally.see(value);
    }
    db.close()
}

/// Compacts a store over all of its keys, once. They came at random, a quarter of them in each of four
/// openings: where a quarter fits into a memtable, three tables of level 0 overlap, and the last
/// quarter is in memory.
pub fn compact<K: Clock, D: Disks>(alloc: Global, clock: &K, disks: &D, job: Job) -> Result<Run>
    ensures { IfOk result (λ run. run.outcome.ops ≡ 1) }
{
    let num = job.scale.num;
    let mut env = disks.empty()?;
    let mut load = Load::of(alloc, job, num)?;
    for part in 0..4u64 {
        let count = (num + part) / 4;
        let mut options = Options::default();
        options.write_buffer_size = job.scale.write_buffer_size;
        options.block_cache_capacity_bytes = job.scale.cache_size;
        options.reuse_logs = false;
        put_part(alloc, &mut env, disks.store(), options, &mut load, count)?;
    }
    let mut options = Options::default();
    options.write_buffer_size = job.scale.write_buffer_size;
    options.block_cache_capacity_bytes = job.scale.cache_size;
    let mut db = DB::open(alloc, disks.store(), &mut env, options)?;
    let timer = Timer::start(clock)?;
    db.compact_range(b"", b"")?;
    let run = timer.stop(load.tally.outcome(1))?;
    db.close()?;
    Ok(run)
}

//! Rows of tables.
ghost use Rattle.std.specs.Prelude.{◌≡◌, ◌+◌, ◌/◌, IfOk};

use crate::keys::{Numbers, Values, key_of};
use crate::report::{Outcome, Run, Tally, Timer};
use crate::rows::Job;
use leveldb_base::cmp::{Cmp, DefaultCmp};
use leveldb_base::error::{Result, StatusCode, err};
use leveldb_env::env::Env;
use leveldb_env::filter::BloomPolicy;
use leveldb_env::mem_env::MemEnv;
use leveldb_env::options::Options;
use leveldb_table::block_cache::BlockCache;
use leveldb_table::cache::Cache;
use leveldb_table::table_builder::TableBuilder;
use leveldb_table::table_reader::{Table, TableIterator, TableReader};
use std::alloc::Global;
use std::time::Clock;

const NAME: &str = "table";

// How many blocks a cache holds.
const CACHED: usize = 2048;

type Choices = Options<DefaultCmp, BloomPolicy>;

type Opened<E> = Table<E, DefaultCmp, BloomPolicy>;

type Blocks = BlockCache<DefaultCmp>;

// Builds the table of the pairs of the first numbers.
fn build_table(alloc: Global, options: &Choices, values: &Values, ops: u64) -> Result<Vec<u8>> {
    let mut builder = TableBuilder::new_raw(alloc, options, Vec::new(alloc));
    let mut last = [0; 16];
    for number in 0..ops {
        let key = key_of(number);
        if number > 0 && !DefaultCmp.cmp(&last, &key).is_lt() {
            return err(alloc, StatusCode::InvalidArgument, "keys don't rise");
        }
        builder.add(&options.compressor_list, &key, values.value_of(number))?;
        last = key;
    }
    let (bytes, size) = builder.finish(&options.compressor_list);
    size?;
    Ok(bytes)
}

/// Builds a table of pairs in order.
pub fn build<K: Clock>(alloc: Global, clock: &K, job: Job) -> Result<Run>
    ensures { IfOk result (λ run. run.outcome.ops ≡ job.scale.num) }
{
    let num = job.scale.num;
    let options = Options::default();
    let values = Values::new(alloc, job.scale.value_size)?;
    let timer = Timer::start(clock)?;
    let table = build_table(alloc, &options, &values, num)?;
    let mut tally = Tally::new(job.checked);
    tally.see(&table);
    timer.stop(tally.outcome(num))
}

// Puts the table of the row's size into a file, and returns its length.
fn put_table<E: Env>(alloc: Global, options: &Choices, env: &mut E, job: Job) -> Result<usize> {
    let values = Values::new(alloc, job.scale.value_size)?;
    let bytes = build_table(alloc, options, &values, job.scale.num)?;
    let mut file = env.open_writable_file(NAME)?;
    env.append(&mut file, &bytes)?;
    Ok(bytes.len())
}

// Opens that table.
fn open_table<E: Env>(
    alloc: Global,
    options: &Choices,
    env: &mut E,
    cache: &mut Blocks,
    size: usize,
) -> Result<Opened<E>> {
    let file = env.open_random_access_file(NAME)?;
    Table::open(
        alloc,
        options.cmp,
        options.filter_policy,
        &options.compressor_list,
        env,
        cache,
        file,
        size,
    )
}

// Opens that table so many times.
fn open_all<E: Env>(
    alloc: Global,
    options: &Choices,
    env: &mut E,
    cache: &mut Blocks,
    size: usize,
    ops: u64,
) -> Result<Outcome>
    ensures { IfOk result (λ outcome. outcome.ops ≡ ops) }
{
    for _ in 0..ops {
        drop(open_table(alloc, options, env, cache, size)?);
    }
    Ok(Tally::new(false).outcome(ops))
}

/// Opens a table, once for a thousand of `--num`.
pub fn open<K: Clock>(alloc: Global, clock: &K, job: Job) -> Result<Run>
    ensures { IfOk result (λ run. run.outcome.ops ≡ (job.scale.num + 999) / 1000) }
{
    let ops = (job.scale.num + 999) / 1000;
    let options = Options::default();
    let mut env = MemEnv::new(alloc);
    let mut cache = Cache::new(alloc, CACHED)?;
    let size = put_table(alloc, &options, &mut env, job)?;
    let timer = Timer::start(clock)?;
    timer.stop(open_all(alloc, &options, &mut env, &mut cache, size, ops)?)
}

// Gets the values of the next numbers' keys.
fn get_all<E: Env>(
    alloc: Global,
    reader: &mut TableReader<'_, E, DefaultCmp, BloomPolicy>,
    numbers: &mut Numbers,
    ops: u64,
    checked: bool,
) -> Result<Outcome>
    ensures { IfOk result (λ outcome. outcome.ops ≡ ops) }
{
    let mut tally = Tally::new(checked);
    for _ in 0..ops {
        let key = key_of(numbers.next_number());
        if let Some((_, value)) = reader.get(alloc, &key)? {
            tally.see(value.as_slice());
        }
    }
    Ok(tally.outcome(ops))
}

/// Gets keys at random from a table that has each of them.
pub fn get<K: Clock>(alloc: Global, clock: &K, job: Job) -> Result<Run>
    ensures { IfOk result (λ run. run.outcome.ops ≡ job.scale.num) }
{
    let num = job.scale.num;
    let options = Options::default();
    let mut env = MemEnv::new(alloc);
    let mut cache = Cache::new(alloc, CACHED)?;
    let size = put_table(alloc, &options, &mut env, job)?;
    let table = open_table(alloc, &options, &mut env, &mut cache, size)?;
    let mut numbers = Numbers::random(num);
    let mut reader = TableReader {
        table: &table,
        env: &mut env,
        cache: &mut cache,
        compressors: &options.compressor_list,
    };
    let timer = Timer::start(clock)?;
    timer.stop(get_all(alloc, &mut reader, &mut numbers, num, job.checked)?)
}

// Goes to so many pairs, one after another.
fn step_all<E: Env>(
    it: &mut TableIterator<'_, E, DefaultCmp, BloomPolicy>,
    ops: u64,
    checked: bool,
) -> Result<Outcome>
    ensures { IfOk result (λ outcome. outcome.ops ≡ ops) }
{
    let mut tally = Tally::new(checked);
    for _ in 0..ops {
        it.advance()?;
        if let Some((key, value)) = it.current() {
            tally.see(key);
            tally.see(value);
        }
    }
    Ok(tally.outcome(ops))
}

/// Goes through all pairs of a table.
pub fn scan<K: Clock>(alloc: Global, clock: &K, job: Job) -> Result<Run>
    ensures { IfOk result (λ run. run.outcome.ops ≡ job.scale.num) }
{
    let options = Options::default();
    let mut env = MemEnv::new(alloc);
    let mut cache = Cache::new(alloc, CACHED)?;
    let size = put_table(alloc, &options, &mut env, job)?;
    let table = open_table(alloc, &options, &mut env, &mut cache, size)?;
    let compressors = &options.compressor_list;
    let mut it = table.iter(alloc, &mut env, &mut cache, compressors)?;
    let timer = Timer::start(clock)?;
    timer.stop(step_all(&mut it, job.scale.num, job.checked)?)
}

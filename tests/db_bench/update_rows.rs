//! Rows of a store whose keys are set again and again: how long its slowest put takes, what space it
//! needs, and how it is read after that.
ghost use Rattle.std.specs.Prelude.{◌≡◌, ◌*◌, IfOk};

use crate::disks::{Disks, size_of_store};
use crate::keys::{Numbers, Values, key_of};
use crate::report::{Outcome, Run, Space, Tally, Timer};
use crate::rows::Job;
use crate::store_rows::{Load, filled, get_all, put_all, put_part};
use leveldb_env::env::Env;
use rusty_leveldb::{DB, Options, Result};
use std::alloc::Global;
use std::time::Clock;

// How many openings the puts of `churn` are spread over.
const OPENINGS: u64 = 10;

// Sets keys at random in the store of this name, and times each put.
fn put_and_time<K: Clock, E: Env>(
    alloc: Global,
    clock: &K,
    env: &mut E,
    name: &str,
    job: Job,
) -> Result<Run>
    ensures { IfOk result (λ run. run.outcome.ops ≡ job.scale.num) }
{
    let mut numbers = Numbers::random(job.scale.num);
    let values = Values::new(alloc, job.scale.value_size)?;
    let mut options = Options::default();
    options.write_buffer_size = job.scale.write_buffer_size;
    options.block_cache_capacity_bytes = job.scale.cache_size;
    let mut db = DB::open(alloc, name, env, options)?;
    let mut tally = Tally::new(job.checked);
    let mut before = 0;
    let mut slowest = 0;
    let timer = Timer::start(clock)?;
    for _ in 0..job.scale.num {
        let number = numbers.next_number();
        let key = key_of(number);
        let value = values.value_of(number);
        db.put(&key, value)?;
        let now = timer.nanos()?;
        slowest = now.saturating_sub(before).max(slowest);
        before = now;
        tally.see(&key);
        tally.see(value);
    }
    let run = timer.stop(tally.outcome(job.scale.num))?;
    db.close()?;
    Ok(Run {
        slowest: Some(slowest),
        ..run
    })
}

/// Sets keys at random, and times each put by itself.
pub fn time_each<K: Clock, D: Disks>(alloc: Global, clock: &K, disks: &D, job: Job) -> Result<Run>
    ensures { IfOk result (λ run. run.outcome.ops ≡ job.scale.num) }
{
    let mut env = disks.empty()?;
    put_and_time(alloc, clock, &mut env, disks.store(), job)
}

/// Sets a tenth of the keys at random, ten times as often as there are entries, in a store that has
/// them. The bytes of its files are the most that there were after an opening.
pub fn churn<K: Clock, D: Disks>(alloc: Global, clock: &K, disks: &D, job: Job) -> Result<Run>
    ensures { IfOk result (λ run. run.outcome.ops ≡ 10 * job.scale.num) }
{
    let scale = job.scale;
    let few = scale.with_num((scale.num + 9) / 10);
    let mut env = filled(alloc, clock, disks, Job { scale: few, ..job })?;
    let mut load = Load::of(alloc, job, few.num)?;
    let mut files = 0;
    let timer = Timer::start(clock)?;
    for _ in 0..OPENINGS {
        let mut options = Options::default();
        options.write_buffer_size = scale.write_buffer_size;
        options.block_cache_capacity_bytes = scale.cache_size;
        put_part(
            alloc,
            &mut env,
            disks.store(),
            options,
            &mut load,
            scale.num,
        )?;
        files = size_of_store(alloc, &mut env, disks.store())?.max(files);
    }
    let live = few.num.saturating_mul(16 + scale.value_size as u64);
    let outcome = Outcome {
        space: Some(Space { files, live }),
        ..load.tally.outcome(OPENINGS * scale.num)
    };
    timer.stop(outcome)
}

/// Gets keys at random from a store in which such keys were set again, as `overwrite` leaves it.
pub fn read_updated<K: Clock, D: Disks>(
    alloc: Global,
    clock: &K,
    disks: &D,
    job: Job,
) -> Result<Run>
    ensures { IfOk result (λ run. run.outcome.ops ≡ job.scale.num) }
{
    let mut env = filled(alloc, clock, disks, job)?;
    let unchecked = Job {
        checked: false,
        ..job
    };
    let numbers = Numbers::random(job.scale.num);
    put_all(alloc, clock, &mut env, disks.store(), unchecked, numbers)?;
    let mut options = Options::default();
    options.write_buffer_size = job.scale.write_buffer_size;
    options.block_cache_capacity_bytes = job.scale.cache_size;
    get_all(alloc, clock, &mut env, disks.store(), options, job, false)
}

//! Rows of iterators over a store that has all in tables. The walk before the one that is
//! timed fills the caches.
ghost use Rattle.std.specs.Prelude.{◌≡◌, IfOk};

use crate::disks::Disks;
use crate::keys::{Numbers, key_of};
use crate::report::{Run, Tally, Timer};
use crate::rows::Job;
use crate::store_rows::filled;
use rusty_leveldb::{DB, Options, Result};
use std::alloc::Global;
use std::time::Clock;

/// Reads all pairs in order, from the first on.
pub fn read_forward<K: Clock, D: Disks>(
    alloc: Global,
    clock: &K,
    disks: &D,
    job: Job,
) -> Result<Run>
    ensures { IfOk result (λ run. run.outcome.ops ≡ job.scale.num) }
{
    let mut env = filled(alloc, clock, disks, job)?;
    let mut options = Options::default();
    options.write_buffer_size = job.scale.write_buffer_size;
    options.block_cache_capacity_bytes = job.scale.cache_size;
    options.reuse_logs = false;
    let mut db = DB::open(alloc, disks.store(), &mut env, options)?;
    let mut it = db.new_iter()?;
    let mut tally = Tally::new(job.checked);
    let mut timer = Timer::start(clock)?;
    for turn in 0..2 * job.scale.num {
        if turn == job.scale.num {
            it.reset();
            tally = Tally::new(job.checked);
            timer = Timer::start(clock)?;
        }
        it.advance()?;
        if let Some((key, value)) = it.current() {
            tally.see(key);
            tally.see(value);
        }
    }
    timer.stop(tally.outcome(job.scale.num))
}

/// Reads all pairs in reverse order, from the last on.
pub fn read_backward<K: Clock, D: Disks>(
    alloc: Global,
    clock: &K,
    disks: &D,
    job: Job,
) -> Result<Run>
    ensures { IfOk result (λ run. run.outcome.ops ≡ job.scale.num) }
{
    let mut env = filled(alloc, clock, disks, job)?;
    let mut options = Options::default();
    options.write_buffer_size = job.scale.write_buffer_size;
    options.block_cache_capacity_bytes = job.scale.cache_size;
    options.reuse_logs = false;
    let mut db = DB::open(alloc, disks.store(), &mut env, options)?;
    let mut it = db.new_iter()?;
    it.seek_to_last()?;
    let mut tally = Tally::new(job.checked);
    let mut timer = Timer::start(clock)?;
    for turn in 0..2 * job.scale.num {
        if turn == job.scale.num {
            it.seek_to_last()?;
            tally = Tally::new(job.checked);
            timer = Timer::start(clock)?;
        }
        if let Some((key, value)) = it.current() {
            tally.see(key);
            tally.see(value);
        }
        it.prev()?;
    }
    timer.stop(tally.outcome(job.scale.num))
}

/// Seeks keys at random, each of which is there.
pub fn seek_at_random<K: Clock, D: Disks>(
    alloc: Global,
    clock: &K,
    disks: &D,
    job: Job,
) -> Result<Run>
    ensures { IfOk result (λ run. run.outcome.ops ≡ job.scale.num) }
{
    let mut env = filled(alloc, clock, disks, job)?;
    let mut options = Options::default();
    options.write_buffer_size = job.scale.write_buffer_size;
    options.block_cache_capacity_bytes = job.scale.cache_size;
    options.reuse_logs = false;
    let mut db = DB::open(alloc, disks.store(), &mut env, options)?;
    let mut it = db.new_iter()?;
    let mut numbers = Numbers::random(job.scale.num);
    let mut tally = Tally::new(job.checked);
    let mut timer = Timer::start(clock)?;
    for turn in 0..2 * job.scale.num {
        if turn == job.scale.num {
            numbers = Numbers::random(job.scale.num);
            tally = Tally::new(job.checked);
            timer = Timer::start(clock)?;
        }
        it.seek(&key_of(numbers.next_number()))?;
        if let Some((_, value)) = it.current() {
            tally.see(value);
        }
    }
    timer.stop(tally.outcome(job.scale.num))
}

//! Rows of the memtable.
ghost use Rattle.std.specs.Prelude.{◌≡◌, ◌^◌, ◌<◌, IfOk};

use crate::keys::{Numbers, Values, key_of};
use crate::report::{Outcome, Run, Tally, Timer};
use crate::rows::Job;
use leveldb_base::cmp::DefaultCmp;
use leveldb_base::error::Result;
use leveldb_base::key_types::ValueType;
use leveldb_base::types::Lookup;
use leveldb_mem::memtable::MemTable;
use std::alloc::Global;
use std::time::Clock;

// Adds the entries of the next numbers, the first of them at sequence number 0.
fn add_all(
    table: &mut MemTable<DefaultCmp>,
    numbers: &mut Numbers,
    values: &Values,
    ops: u64,
    checked: bool,
) -> Result<Outcome>
    requires { ops < 2 ^ 56 }
    ensures { IfOk result (λ outcome. outcome.ops ≡ ops) }
{
    let mut tally = Tally::new(checked);
    for sequence in 0..ops {
        let number = numbers.next_number();
        let key = key_of(number);
        let value = values.value_of(number);
        table.add(sequence, ValueType::TypeValue, &key, value)?;
        tally.see(&key);
        tally.see(value);
    }
    Ok(tally.outcome(ops))
}

// Adds the entries of the next numbers to an empty memtable.
fn add<K: Clock>(alloc: Global, clock: &K, job: Job, numbers: &mut Numbers) -> Result<Run>
    ensures { IfOk result (λ run. run.outcome.ops ≡ job.scale.num) }
{
    let values = Values::new(alloc, job.scale.value_size)?;
    let mut table = MemTable::new(alloc, DefaultCmp);
    let timer = Timer::start(clock)?;
    timer.stop(add_all(&mut table, numbers, &values, job.scale.num, job.checked)?)
}

/// Adds keys in their order.
pub fn add_in_order<K: Clock>(alloc: Global, clock: &K, job: Job) -> Result<Run>
    ensures { IfOk result (λ run. run.outcome.ops ≡ job.scale.num) }
{
    add(alloc, clock, job, &mut Numbers::rising(job.scale.num))
}

/// Adds keys at random.
pub fn add_at_random<K: Clock>(alloc: Global, clock: &K, job: Job) -> Result<Run>
    ensures { IfOk result (λ run. run.outcome.ops ≡ job.scale.num) }
{
    add(alloc, clock, job, &mut Numbers::random(job.scale.num))
}

// Gets the newest values of the next numbers' keys.
fn get_all(table: &MemTable<DefaultCmp>, numbers: &mut Numbers, ops: u64, checked: bool) -> Outcome
    requires { ops < 2 ^ 56 }
    ensures { result.ops ≡ ops }
{
    let mut tally = Tally::new(checked);
    for _ in 0..ops {
        if let Lookup::Value(value) = table.newest(&key_of(numbers.next_number()), ops) {
            tally.see(value);
        }
    }
    tally.outcome(ops)
}

/// Gets keys at random from a memtable that has each of them.
pub fn get<K: Clock>(alloc: Global, clock: &K, job: Job) -> Result<Run>
    ensures { IfOk result (λ run. run.outcome.ops ≡ job.scale.num) }
{
    let num = job.scale.num;
    let values = Values::new(alloc, job.scale.value_size)?;
    let mut table = MemTable::new(alloc, DefaultCmp);
    add_all(&mut table, &mut Numbers::rising(num), &values, num, false)?;
    let mut numbers = Numbers::random(num);
    let timer = Timer::start(clock)?;
    timer.stop(get_all(&table, &mut numbers, num, job.checked))
}

//! Rows of the log and of write batches.
ghost use Rattle.std.specs.Prelude.{◌≡◌, IfOk};

use crate::keys::{Values, key_of};
use crate::report::{Outcome, Run, Tally, Timer};
use crate::rows::Job;
use leveldb_base::error::Result;
use leveldb_mem::log::{LogReader, LogWriter};
use leveldb_mem::write_batch::WriteBatch;
use std::alloc::Global;
use std::time::Clock;

// How many changes a batch has.
const BATCH: u32 = 100;

// Writes a record for each number.
fn write_all(
    writer: &mut LogWriter<Vec<u8>>,
    values: &Values,
    ops: u64,
    checked: bool,
) -> Result<Outcome>
    ensures { IfOk result (λ outcome. outcome.ops ≡ ops) }
{
    let mut tally = Tally::new(checked);
    for number in 0..ops {
        let record = values.value_of(number);
        writer.add_record(record)?;
        tally.see(record);
    }
    Ok(tally.outcome(ops))
}

/// Writes records of `--value_size` to a log in memory.
pub fn write<K: Clock>(alloc: Global, clock: &K, job: Job) -> Result<Run>
    ensures { IfOk result (λ run. run.outcome.ops ≡ job.scale.num) }
{
    let values = Values::new(alloc, job.scale.value_size)?;
    let mut writer = LogWriter::new(alloc, Vec::new(alloc));
    let timer = Timer::start(clock)?;
    timer.stop(write_all(&mut writer, &values, job.scale.num, job.checked)?)
}

// Reads so many records.
fn read_all(alloc: Global, log: &[u8], ops: u64, checked: bool) -> Result<Outcome>
    ensures { IfOk result (λ outcome. outcome.ops ≡ ops) }
{
    let mut tally = Tally::new(checked);
    let mut record = Vec::new(alloc);
    let mut reader = LogReader::new(alloc, log, true);
    for _ in 0..ops {
        reader.read(&mut record)?;
        tally.see(&record);
    }
    Ok(tally.outcome(ops))
}

/// Reads the records of a log in memory, with their checksums.
pub fn read<K: Clock>(alloc: Global, clock: &K, job: Job) -> Result<Run>
    ensures { IfOk result (λ run. run.outcome.ops ≡ job.scale.num) }
{
    let values = Values::new(alloc, job.scale.value_size)?;
    let mut writer = LogWriter::new(alloc, Vec::new(alloc));
    write_all(&mut writer, &values, job.scale.num, false)?;
    let timer = Timer::start(clock)?;
    timer.stop(read_all(alloc, &writer.sink, job.scale.num, job.checked)?)
}

// Puts the keys and values of the first numbers into batches.
fn put_all(alloc: Global, values: &Values, ops: u64, checked: bool) -> Result<Outcome>
    ensures { IfOk result (λ outcome. outcome.ops ≡ ops) }
{
    let mut tally = Tally::new(checked);
    let mut batch = WriteBatch::new(alloc)?;
    for number in 0..ops {
        if batch.count() >= BATCH {
            tally.see(batch.contents());
            batch.clear();
        }
        batch.put(&key_of(number), values.value_of(number))?;
    }
    tally.see(batch.contents());
    Ok(tally.outcome(ops))
}

/// Puts keys and values into batches of a hundred.
pub fn batch<K: Clock>(alloc: Global, clock: &K, job: Job) -> Result<Run>
    ensures { IfOk result (λ run. run.outcome.ops ≡ job.scale.num) }
{
    let values = Values::new(alloc, job.scale.value_size)?;
    let timer = Timer::start(clock)?;
    timer.stop(put_all(alloc, &values, job.scale.num, job.checked)?)
}

//! The row of checksums.
ghost use Rattle.std.specs.Prelude.{◌≡◌, ◌+◌, ◌/◌, IfOk};

use crate::keys::Values;
use crate::report::{Run, Tally, Timer};
use crate::rows::Job;
use leveldb_base::crc;
use leveldb_base::error::Result;
use std::alloc::Global;
use std::time::Clock;

// How many bytes a checksum is taken of.
const SIZE: usize = 4096;

/// Takes the checksum of 4096 bytes, once for ten of `--num`.
pub fn crc32c<K: Clock>(alloc: Global, clock: &K, job: Job) -> Result<Run>
    ensures { IfOk result (λ run. run.outcome.ops ≡ (job.scale.num + 9) / 10) }
{
    let ops = (job.scale.num + 9) / 10;
    let values = Values::new(alloc, SIZE)?;
    let mut tally = Tally::new(job.checked);
    let timer = Timer::start(clock)?;
    for number in 0..ops {
        let bytes = values.value_of(number);
        tally.see_sum(bytes, crc::crc32(bytes));
    }
    timer.stop(tally.outcome(ops))
}

//! What a row did, and how long it took.
ghost use Rattle.std.specs.Prelude.{◌≡◌, IfOk};

use leveldb_base::crc::{Digest, digest};
use leveldb_base::error::Result;
use std::alloc::Global;
use std::time::{Clock, Instant};

/// The bytes of a store: of the files in its folder, and of the keys and values that it shows.
#[derive(Clone, Copy, Debug)]
pub struct Space {
    pub files: u64,
    pub live: u64,
}

/// What a row did: operations, bytes that were read or written, and their checksum, or 0; and the
/// space of its store, where the row looks at that.
#[derive(Clone, Copy, Debug)]
pub struct Outcome {
    pub ops: u64,
    pub bytes: u64,
    pub sum: u32,
    pub space: Option<Space>,
}

/// A run of a row: what it did, and in how many nanoseconds; and in a row that times each operation
/// those of the slowest one.
#[derive(Clone, Copy, Debug)]
pub struct Run {
    pub outcome: Outcome,
    pub nanos: u64,
    pub slowest: Option<u64>,
}

/// Counts the bytes that a row reads or writes, and in the warm-up run takes their checksum.
#[derive(Drop)]
pub struct Tally {
    bytes: u64,
    digest: Option<Digest>,
}

impl Tally {
    /// Nothing is read yet. The checksum is taken if `checked`.
    pub fn new(checked: bool) -> Tally {
        Tally {
            bytes: 0,
            digest: if checked { Some(digest()) } else { None },
        }
    }

    /// These bytes are read or written.
    #[inline]
    pub fn see(&mut self, bytes: &[u8]) {
        self.count(bytes);
        if let Some(digest) = &mut self.digest {
            digest.update(bytes);
        }
    }

    /// These bytes are read, and all that is kept of them is this number.
    #[inline]
    pub fn see_sum(&mut self, bytes: &[u8], sum: u32) {
        self.count(bytes);
        if let Some(digest) = &mut self.digest {
            digest.update(&sum.to_le_bytes());
        }
    }

    #[inline]
    fn count(&mut self, bytes: &[u8]) {
        self.bytes = self.bytes.saturating_add(bytes.len() as u64);
    }

    /// What a row did that made these operations.
    pub fn outcome(self, ops: u64) -> Outcome
        ensures { result.ops ≡ ops }
    {
        Outcome {
            ops,
            bytes: self.bytes,
            sum: match self.digest {
                Some(digest) => digest.finalize(),
                None => 0,
            },
            space: None,
        }
    }
}

/// A stopwatch.
#[derive(Drop)]
pub struct Timer<'c, K: Clock> {
    clock: &'c K,
    start: Instant,
}

impl<'c, K: Clock> Timer<'c, K> {
    /// A stopwatch that runs from now on.
    pub fn start(clock: &'c K) -> Result<Timer<'c, K>> {
        Ok(Timer {
            clock,
            start: Instant::now(clock)?,
        })
    }

    /// The nanoseconds since it runs.
    pub fn nanos(&self) -> Result<u64> {
        let time = self.start.elapsed(self.clock)?;
        Ok(
            time.as_secs()
                .saturating_mul(1_000_000_000)
                .saturating_add(u64::from(time.subsec_nanos())),
        )
    }

    /// The run that ends now.
    pub fn stop(self, outcome: Outcome) -> Result<Run>
        ensures { IfOk result (λ run. run.outcome ≡ outcome) }
    {
        let nanos = self.nanos()?;
        Ok(Run {
            outcome,
            nanos,
            slowest: None,
        })
    }
}

impl Outcome {
    /// The line of standard output.
    pub fn line(self, alloc: Global, name: &str) -> Result<String> {
        let Outcome {
            ops,
            bytes,
            sum,
            space,
        } = self;
        let room = match space {
            Some(Space { files, live }) => {
                format!(in alloc; " files {files} bytes live {live} bytes")?
            }
            None => String::new(alloc),
        };
        Ok(format!(in alloc; "{name} {ops} ops {bytes} bytes crc32c {sum:08x}{room}\n")?)
    }
}

impl Run {
    /// What this run did, and the lesser times of the two.
    pub fn or_faster(self, other: Run) -> Run
        ensures { result.outcome ≡ self.outcome }
    {
        Run {
            outcome: self.outcome,
            nanos: self.nanos.min(other.nanos),
            slowest: match (self.slowest, other.slowest) {
                (Some(mine), Some(theirs)) => Some(mine.min(theirs)),
                (mine, theirs) => mine.or(theirs),
            },
        }
    }

    /// The line of standard error: microseconds an operation, and millions of bytes a second; and
    /// the microseconds of the slowest operation, where each was timed.
    pub fn line(self, alloc: Global, name: &str) -> Result<String> {
        let Run {
            outcome,
            nanos,
            slowest,
        } = self;
        let each = nanos / outcome.ops.max(1);
        let (micros, rest) = (each / 1000, each % 1000);
        let rate = outcome.bytes.saturating_mul(10_000) / nanos.max(1);
        let (megabytes, tenth) = (rate / 10, rate % 10);
        let ops = outcome.ops;
        let stall = match slowest {
            Some(nanos) => {
                let (micros, rest) = (nanos / 1000, nanos % 1000);
                format!(in alloc; "; slowest {micros}.{rest:03} micros")?
            }
            None => String::new(alloc),
        };
        Ok(format!(in alloc;
            "{name:<12} : {micros:>7}.{rest:03} micros/op; {megabytes:>6}.{tenth} MB/s; {ops} ops{stall}\n"
        )?)
    }
}

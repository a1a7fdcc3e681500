//! The rows: their names, their sizes, and how often each is run.
ghost use Rattle.std.specs.Prelude.{◌≡◌, IfOk};
ghost use Rattle.db_bench.specs.Rows.{ops_of};

use crate::disks::Disks;
use crate::flags::Scale;
use crate::report::Run;
use crate::{
    block_rows, iter_rows, log_rows, mem_rows, store_rows, sum_rows, table_rows, update_rows,
};
use leveldb_base::error::Result;
use std::alloc::Global;
use std::time::Clock;

/// What is timed.
#[derive(Clone, Copy, Debug, PartialEq, Eq)]
pub enum Row {
    FillSeq,
    FillRandom,
    FillSync,
    Overwrite,
    Stalls,
    Churn,
    ReadRandom,
    ReadMissing,
    ReadUpdated,
    ReadSeq,
    ReadReverse,
    SeekRandom,
    Open,
    Compact,
    Crc32c,
    LogWrite,
    LogRead,
    Batch,
    MemAddSeq,
    MemAddRandom,
    MemGet,
    BlockBuild,
    BlockNext,
    BlockPrev,
    BlockSeek,
    BloomBuild,
    BloomMatch,
    TableBuild,
    TableOpen,
    TableGet,
    TableScan,
}

/// A row at one of its sizes.
#[derive(Clone, Copy, Debug)]
pub struct Task {
    pub row: Row,
    pub scale: Scale,
}

/// What a run of a row is given.
#[derive(Clone, Copy)]
pub struct Job {
    pub scale: Scale,
    /// Whether the checksum of what is read or written is taken.
    pub checked: bool,
}

impl Row {
    /// All rows, in the order in which they run where no rows are named.
    pub const ALL: [Row; 31] = [
        Row::FillSeq,
        Row::FillSync,
        Row::FillRandom,
        Row::Overwrite,
        Row::Stalls,
        Row::Churn,
        Row::ReadRandom,
        Row::ReadMissing,
        Row::ReadUpdated,
        Row::ReadSeq,
        Row::ReadReverse,
        Row::SeekRandom,
        Row::Open,
        Row::Compact,
        Row::Crc32c,
        Row::LogWrite,
        Row::LogRead,
        Row::Batch,
        Row::MemAddSeq,
        Row::MemAddRandom,
        Row::MemGet,
        Row::BlockBuild,
        Row::BlockNext,
        Row::BlockPrev,
        Row::BlockSeek,
        Row::BloomBuild,
        Row::BloomMatch,
        Row::TableBuild,
        Row::TableOpen,
        Row::TableGet,
        Row::TableScan,
    ];

    /// The row's name.
    pub fn name(self) -> &'static str {
        match self {
            Row::FillSeq => "fillseq",
            Row::FillRandom => "fillrandom",
            Row::FillSync => "fillsync",
            Row::Overwrite => "overwrite",
            Row::Stalls => "stalls",
            Row::Churn => "churn",
            Row::ReadRandom => "readrandom",
            Row::ReadMissing => "readmissing",
            Row::ReadUpdated => "readupdated",
            Row::ReadSeq => "readseq",
            Row::ReadReverse => "readreverse",
            Row::SeekRandom => "seekrandom",
            Row::Open => "open",
            Row::Compact => "compact",
            Row::Crc32c => "crc32c",
            Row::LogWrite => "logwrite",
            Row::LogRead => "logread",
            Row::Batch => "batch",
            Row::MemAddSeq => "memaddseq",
            Row::MemAddRandom => "memaddrandom",
            Row::MemGet => "memget",
            Row::BlockBuild => "blockbuild",
            Row::BlockNext => "blocknext",
            Row::BlockPrev => "blockprev",
            Row::BlockSeek => "blockseek",
            Row::BloomBuild => "bloombuild",
            Row::BloomMatch => "bloommatch",
            Row::TableBuild => "tablebuild",
            Row::TableOpen => "tableopen",
            Row::TableGet => "tableget",
            Row::TableScan => "tablescan",
        }
    }

    /// The row of this name.
    pub fn named(name: &str) -> Option<Row> {
        Row::ALL.iter().copied().find(|row| row.name() == name)
    }

    /// Whether the row is run at a tenth, three tenths, all and twice of `--num`, not at that alone.
    pub fn grows(self) -> bool {
        matches!(self, Row::MemAddSeq | Row::MemAddRandom)
    }
}

/// Runs a row once to warm up, and then three times.
/// The run has what was done, and the least times of the three.
pub fn measure<K: Clock, D: Disks>(alloc: Global, clock: &K, disks: &D, task: Task) -> Result<Run>
    ensures { IfOk result (λ run. run.outcome.ops ≡ ops_of task.row task.scale.num) }
{
    let Task { row, scale } = task;
    let mut job = Job {
        scale,
        checked: true,
    };
    let warm = run_once(alloc, clock, disks, row, job)?;
    job.checked = false;
    let mut least = Run {
        outcome: warm.outcome,
        nanos: u64::MAX,
        slowest: None,
    };
    for _ in 0..3u32 {
        least = least.or_faster(run_once(alloc, clock, disks, row, job)?);
    }
    Ok(least)
}

// Runs a row once.
fn run_once<K: Clock, D: Disks>(
    alloc: Global,
    clock: &K,
    disks: &D,
    row: Row,
    job: Job,
) -> Result<Run>
    ensures { IfOk result (λ run. run.outcome.ops ≡ ops_of row job.scale.num) }
{
    match row {
        Row::FillSeq => store_rows::fill_in_order(alloc, clock, disks, job),
        Row::FillRandom => store_rows::fill_at_random(alloc, clock, disks, job),
        Row::FillSync => store_rows::fill_synced(alloc, clock, disks, job),
        Row::Overwrite => store_rows::overwrite(alloc, clock, disks, job),
        Row::Stalls => update_rows::time_each(alloc, clock, disks, job),
        Row::Churn => update_rows::churn(alloc, clock, disks, job),
        Row::ReadRandom => store_rows::read_at_random(alloc, clock, disks, job),
        Row::ReadMissing => store_rows::read_missing(alloc, clock, disks, job),
        Row::ReadUpdated => update_rows::read_updated(alloc, clock, disks, job),
        Row::ReadSeq => iter_rows::read_forward(alloc, clock, disks, job),
        Row::ReadReverse => iter_rows::read_backward(alloc, clock, disks, job),
        Row::SeekRandom => iter_rows::seek_at_random(alloc, clock, disks, job),
        Row::Open => store_rows::open_again(alloc, clock, disks, job),
        Row::Compact => store_rows::compact(alloc, clock, disks, job),
        Row::Crc32c => sum_rows::crc32c(alloc, clock, job),
        Row::LogWrite => log_rows::write(alloc, clock, job),
        Row::LogRead => log_rows::read(alloc, clock, job),
        Row::Batch => log_rows::batch(alloc, clock, job),
        Row::MemAddSeq => mem_rows::add_in_order(alloc, clock, job),
        Row::MemAddRandom => mem_rows::add_at_random(alloc, clock, job),
        Row::MemGet => mem_rows::get(alloc, clock, job),
        Row::BlockBuild => block_rows::build(alloc, clock, job),
        Row::BlockNext => block_rows::step_forward(alloc, clock, job),
        Row::BlockPrev => block_rows::step_back(alloc, clock, job),
        Row::BlockSeek => block_rows::seek(alloc, clock, job),
        Row::BloomBuild => block_rows::build_filter(alloc, clock, job),
        Row::BloomMatch => block_rows::match_keys(alloc, clock, job),
        Row::TableBuild => table_rows::build(alloc, clock, job),
        Row::TableOpen => table_rows::open(alloc, clock, job),
        Row::TableGet => table_rows::get(alloc, clock, job),
        Row::TableScan => table_rows::scan(alloc, clock, job),
    }
}

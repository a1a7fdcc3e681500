//! What the program is asked for.
ghost use Rattle.std.specs.Prelude.{◌≡◌, ◌<◌, ◌≤◌, IfOk, IfSome};

use crate::rows::Row;
use leveldb_base::error::Status;
use std::alloc::{AllocError, AllocFailed, Global};
use std::{fmt, io};

/// The greatest `--num`.
pub const MOST_NUM: u64 = 10_000_000;

/// The greatest `--value_size`.
pub const MOST_VALUE_SIZE: usize = 1 << 20;

/// The least `--cache_size`, one block of a table, and the greatest.
pub const LEAST_CACHE_SIZE: u64 = 4096;

pub const MOST_CACHE_SIZE: u64 = 1 << 30;

/// The greatest `--write_buffer_size`.
pub const MOST_WRITE_BUFFER_SIZE: u64 = 1 << 30;

/// How much a row does. A row of several sizes does up to twice the `--num`.
#[derive(Clone, Copy, Debug)]
pub struct Scale {
    pub num: u64,
    pub value_size: usize,
    /// Bytes of blocks that a store keeps in memory.
    pub cache_size: usize,
    /// Bytes of a memtable that becomes a table.
    pub write_buffer_size: usize,
    pub ghost some: { 0 < num },
    pub ghost few: { num ≤ 20000000 },
    pub ghost short: { value_size ≤ 1048576 },
    pub ghost cached: { (4096 ≤ cache_size) × (cache_size ≤ 1073741824) },
    pub ghost buffered: { (0 < write_buffer_size) × (write_buffer_size ≤ 1073741824) },
}

impl Scale {
    /// The same sizes, for `num` entries.
    pub fn with_num(self, num: u64) -> Scale
        requires some { 0 < num }
        requires few { num ≤ 20000000 }
        ensures { result.num ≡ num }
    {
        Scale {
            num,
            value_size: self.value_size,
            cache_size: self.cache_size,
            write_buffer_size: self.write_buffer_size,
        }
    }
}

/// What the program is asked for.
#[derive(Drop)]
pub struct Flags<'a> {
    pub rows: Vec<Row>,
    pub num: u64,
    pub value_size: usize,
    pub cache_size: usize,
    pub write_buffer_size: usize,
    /// The folder in whose `bench` the stores are; none for memory.
    pub folder: Option<&'a str>,
    pub ghost some: { 0 < num },
    pub ghost few: { num ≤ 10000000 },
    pub ghost short: { value_size ≤ 1048576 },
    pub ghost cached: { (4096 ≤ cache_size) × (cache_size ≤ 1073741824) },
    pub ghost buffered: { (0 < write_buffer_size) × (write_buffer_size ≤ 1073741824) },
}

/// Why the program stopped.
#[derive(Drop)]
pub enum Fault {
    /// A word is none of its flags.
    Usage,
    /// A call failed.
    Failed(Status),
}

impl fmt::Display for Fault {
    fn fmt<W: fmt::Write>(&self, f: &mut fmt::Formatter<W>) -> fmt::Result {
        match self {
            Fault::Usage => f.write_str(
                "usage: db_bench [--benchmarks=ROW,..] [--num=N] [--value_size=N] [--cache_size=N] [--write_buffer_size=N] [--db=DIR]",
            ),
            Fault::Failed(status) => match &status.err {
                None => write!(f, "db_bench: {}", status.code),
                Some(text) => write!(f, "db_bench: {text}"),
            },
        }
    }
}

impl From<Status> for Fault {
    fn from(status: Status) -> Fault {
        Fault::Failed(status)
    }
}

impl From<AllocError> for Fault {
    fn from(error: AllocError) -> Fault {
        Fault::Failed(error.into())
    }
}

impl<T: Drop> From<AllocFailed<T>> for Fault {
    fn from(error: AllocFailed<T>) -> Fault {
        Fault::Failed(error.into())
    }
}

impl From<io::Error> for Fault {
    fn from(error: io::Error) -> Fault {
        Fault::Failed(error.into())
    }
}

/// Reads the flags; a later one replaces an earlier one.
/// Without flags each row is run, over 100000 entries of 100 bytes, with 4 MiB of blocks in memory
/// and memtables of 4 MiB; the stores are in memory, too.
pub fn parse<'a>(alloc: Global, words: &'a [String]) -> Result<Flags<'a>, Fault> {
    let mut flags = Flags {
        rows: Vec::from_slice(alloc, &Row::ALL)?,
        num: 100_000,
        value_size: 100,
        cache_size: 4 << 20,
        write_buffer_size: 4 << 20,
        folder: None,
    };
    for word in words {
        set(alloc, &mut flags, word.as_str())?;
    }
    Ok(flags)
}

// Sets what one word says.
fn set<'a>(alloc: Global, flags: &mut Flags<'a>, word: &'a str) -> Result<(), Fault> {
    if let Some(names) = word.strip_prefix("--benchmarks=") {
        flags.rows = read_rows(alloc, names)?;
    } else if let Some(digits) = word.strip_prefix("--num=") {
        flags.num = read_number(digits, 1, MOST_NUM)?;
    } else if let Some(digits) = word.strip_prefix("--value_size=") {
        flags.value_size = read_number(digits, 0, MOST_VALUE_SIZE as u64)? as usize;
    } else if let Some(digits) = word.strip_prefix("--cache_size=") {
        flags.cache_size = read_number(digits, LEAST_CACHE_SIZE, MOST_CACHE_SIZE)? as usize;
    } else if let Some(digits) = word.strip_prefix("--write_buffer_size=") {
        flags.write_buffer_size = read_number(digits, 1, MOST_WRITE_BUFFER_SIZE)? as usize;
    } else if let Some(folder) = word.strip_prefix("--db=") {
        if folder.is_empty() {
            return Err(Fault::Usage);
        }
        flags.folder = Some(folder);
    } else {
        return Err(Fault::Usage);
    }
    Ok(())
}

// The rows of these names, with a comma between two.
fn read_rows(alloc: Global, names: &str) -> Result<Vec<Row>, Fault> {
    let mut rows = Vec::new(alloc);
    for name in names.split(',') {
        let Some(row) = Row::named(name) else {
            return Err(Fault::Usage);
        };
        rows.push(row)?;
    }
    Ok(rows)
}

// A number from `least` to `most`.
fn read_number(digits: &str, least: u64, most: u64) -> Result<u64, Fault>
    ensures { IfOk result (λ number. (least ≤ number) × (number ≤ most)) }
{
    match digits.parse::<u64>() {
        Ok(number) if least <= number && number <= most => Ok(number),
        _ => Err(Fault::Usage),
    }
}

//! Caches of a store's open tables, over tables whose bytes are written by hand.
use super::store_files::{PAIR_TABLE, TABLE, put};
use bytes::Bytes;
use leveldb_base::cmp::DefaultCmp;
use leveldb_base::error::{Result, StatusCode};
use leveldb_base::types::FileNum;
use leveldb_env::env::Env;
use leveldb_env::filter::BloomPolicy;
use leveldb_env::mem_env::MemEnv;
use leveldb_env::options::{Options, in_memory};
use leveldb_version::table_cache::{TableCache, table_file_name};
use std::alloc::Global;
use std::process::Abort;
use support::failed_with;

type Choices = Options<DefaultCmp, BloomPolicy>;

type Tables = TableCache<MemEnv, DefaultCmp, BloomPolicy>;

/// A key and its value.
type Pair = (&'static [u8], &'static [u8]);

/// The pair of both tables.
const A: Pair = (b"a\x01\x01\0\0\0\0\0\0", b"1");

/// The second pair of `PAIR_TABLE`.
const B: Pair = (b"b\x01\x02\0\0\0\0\0\0", b"2");

/// A store of two tables: 4 has both pairs, and 5 has one.
fn two_tables(alloc: Global) -> Result<(MemEnv, Choices)> {
    let (mut env, options) = in_memory(alloc);
    put(alloc, &mut env, "000004.ldb", PAIR_TABLE)?;
    put(alloc, &mut env, "000005.ldb", TABLE)?;
    Ok((env, options))
}

/// How many files may be open, of which ten are no tables, and how many bytes a block counts as.
type Limits = (usize, usize);

const DEFAULTS: Limits = (1024, 4096);

/// A store of two tables, and a cache of those that are open.
struct Opened {
    alloc: Global,
    env: MemEnv,
    options: Choices,
    tables: Tables,
}

impl Drop for Opened {
    // One call for whoever drops one, in place of one for each part of it.
    fn drop(self) {
        let Opened {
            alloc: _,
            env,
            options,
            tables,
        } = self;
        drop(env);
        drop(options);
        drop(tables);
    }
}

fn is_pair(found: Option<(Bytes, Bytes)>, pair: Pair) -> bool {
    match found {
        Some((key, value)) => key.as_slice() == pair.0 && value.as_slice() == pair.1,
        None => false,
    }
}

fn failed_with_no_memory(answer: &Result<Option<(Bytes, Bytes)>>) -> bool {
    match answer {
        Ok(_) => false,
        Err(status) => status.code == StatusCode::OutOfMemory,
    }
}

impl Opened {
    fn new(alloc: Global, limits: Limits) -> Result<Opened> {
        let (env, mut options) = two_tables(alloc)?;
        (options.max_open_files, options.block_size) = limits;
        let tables = Tables::new(alloc, "db", &options)?;
        Ok(Opened {
            alloc,
            env,
            options,
            tables,
        })
    }

    fn get(&mut self, number: FileNum, key: &[u8]) -> Result<Option<(Bytes, Bytes)>> {
        self.tables.get(&mut self.env, &self.options, number, key)
    }

    fn open(&mut self, number: FileNum) -> Result<()> {
        self.tables.open_table(&mut self.env, &self.options, number)
    }

    fn delete(&mut self, number: FileNum) -> Result<()> {
        self.env.delete(&table_file_name(self.alloc, "db", number)?)
    }

    /// Whether a pair is found by its key. After a call that memory is out for, it is looked up
    /// again.
    fn finds(&mut self, number: FileNum, pair: Pair) -> Result<bool> {
        let first = self.get(number, pair.0);
        if failed_with_no_memory(&first) && !is_pair(self.get(number, pair.0)?, pair) {
            return Ok(false);
        }
        Ok(is_pair(first?, pair))
    }

    fn change(&mut self, act: &Act) -> Result<()> {
        match act {
            Act::Open(number) => self.open(*number),
            Act::Put(name, bytes) => put(self.alloc, &mut self.env, name, bytes),
            Act::Delete(number) => self.delete(*number),
            _ => Ok(()),
        }
    }

    /// Does what is to be done, and returns whether what is asked is so.
    fn is_right(&mut self, act: &Act) -> Result<bool> {
        match act {
            Act::Finds(number, pair) => self.finds(*number, *pair),
            Act::GetFails(number) => failed_with(self.get(*number, A.0), StatusCode::Corruption),
            Act::OpenFails(number) => failed_with(self.open(*number), StatusCode::Corruption),
            Act::Evicts(number, was_open) => Ok(self.tables.evict(*number) == *was_open),
            Act::IsOpen(number, is_open) => {
                Ok(self.tables.get_table(*number).is_some() == *is_open)
            }
            _ => {
                self.change(act)?;
                Ok(true)
            }
        }
    }
}

/// What is done to a store's tables and the cache, or asked of them.
#[derive(Clone, Copy)]
enum Act {
    Open(FileNum),
    /// Makes a file of these bytes.
    Put(&'static str, &'static [u8]),
    Delete(FileNum),
    Finds(FileNum, Pair),
    /// Looking the key of `A` up in a table fails as damage does.
    GetFails(FileNum),
    /// Opening a table fails as damage does.
    OpenFails(FileNum),
    /// Closes a table, which was open or not.
    Evicts(FileNum, bool),
    IsOpen(FileNum, bool),
}

/// Does and asks all this, one after another.
fn play(rt: &(impl Abort + AllocGlobal), limits: Limits, acts: &[Act]) -> Result<()> {
    let mut opened = Opened::new(rt.alloc(), limits)?;
    for (at, act) in acts.iter().enumerate() {
        assert!(rt; opened.is_right(act)?, "row {at}");
    }
    Ok(())
}

const OPENED_ONCE_AND_AGAIN: &[Act] = &[
    Act::Finds(4, B),
    Act::Finds(4, B),
    Act::Evicts(4, true),
    Act::Evicts(4, false),
    Act::Finds(4, B),
    Act::Finds(5, A),
];

/// A pair is found alike when its table is opened, when it is open, and when it is opened again.
#[test]
fn opened_once_and_again(rt: HostRuntime) -> Result<()> {
    play(&rt, DEFAULTS, OPENED_ONCE_AND_AGAIN)
}

const ROOM_FOR_ONE: &[Act] = &[
    Act::Finds(4, B),
    Act::Finds(5, A),
    Act::IsOpen(4, false),
    Act::IsOpen(5, true),
    Act::Open(4),
    Act::IsOpen(4, true),
    Act::IsOpen(5, false),
];

/// With room for one table the other is closed.
#[test]
fn room_for_one(rt: HostRuntime) -> Result<()> {
    play(&rt, (11, 4096), ROOM_FOR_ONE)
}

const ROOM_FOR_NONE: &[Act] = &[Act::Finds(4, B), Act::Open(4), Act::IsOpen(4, false)];

/// With room for none, each look-up opens its table.
#[test]
fn room_for_none(rt: HostRuntime) -> Result<()> {
    play(&rt, (10, 0), ROOM_FOR_NONE)
}

const MADE_AGAIN: &[Act] = &[
    Act::Finds(5, A),
    Act::Evicts(5, true),
    Act::Put("000005.ldb", PAIR_TABLE),
    Act::Finds(5, B),
];

/// A file that is made again after its table was evicted has its own blocks.
#[test]
fn made_again(rt: HostRuntime) -> Result<()> {
    play(&rt, DEFAULTS, MADE_AGAIN)
}

const MISSING_AND_EMPTY: &[Act] = &[
    Act::Delete(4),
    Act::GetFails(4),
    Act::Put("000004.ldb", b""),
    Act::OpenFails(4),
    Act::Put("000004.ldb", TABLE),
    Act::Finds(4, A),
];

/// A table that is missing and one that is empty are damage, and are found once they are there.
#[test]
fn missing_and_empty(rt: HostRuntime) -> Result<()> {
    play(&rt, DEFAULTS, MISSING_AND_EMPTY)
}

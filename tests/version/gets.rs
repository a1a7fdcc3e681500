//! Looking a key up in a version: what its tables have of it, beside a search through all of their
//! entries, and which file is charged with a seek.

use super::store_files::put;
use bytes::Bytes;
use leveldb_base::cmp::{Cmp, DefaultCmp, InternalKeyCmp};
use leveldb_base::error::{Result, StatusCode};
use leveldb_base::key_types::{LookupKey, ValueType};
use leveldb_base::types::{FileMetaData, FileNum, Lookup, MAX_SEQUENCE_NUMBER, SequenceNumber};
use leveldb_env::compressor::CompressorList;
use leveldb_env::env::Env;
use leveldb_env::filter::{BloomPolicy, InternalFilterPolicy};
use leveldb_env::mem_env::MemEnv;
use leveldb_env::options::{Options, in_memory};
use leveldb_iter::walk::Walk;
use leveldb_table::table_builder::TableBuilder;
use leveldb_version::table_cache::{ReadTables, TableCache, table_file_name};
use leveldb_version::version::{GetStats, Version, new_version_iter};
use std::alloc::Global;
use std::process::Abort;
use support::failed_with;

pub type Choices = Options<DefaultCmp, BloomPolicy>;

pub type Tables = TableCache<MemEnv, DefaultCmp, BloomPolicy>;

type Builder = TableBuilder<Vec<u8>, InternalKeyCmp<DefaultCmp>, InternalFilterPolicy<BloomPolicy>>;

/// An entry: its key, its number, and its value or a deletion.
pub type Entry = (&'static str, SequenceNumber, Option<&'static str>);

/// A table: its level, its number, and its entries by key, and of one key the newest first.
pub type Rows = (usize, FileNum, &'static [Entry]);

/// Five tables in three levels.
pub const TABLES: [Rows; 5] = [
    (
        0,
        8,
        &[
            ("a", 17, Some("a17")),
            ("c", 16, Some("c16")),
            ("c", 15, None),
        ],
    ),
    (0, 9, &[("a", 19, None), ("d", 18, Some("d18"))]),
    (1, 6, &[("a", 9, Some("a9")), ("b", 8, Some("b8"))]),
    (1, 7, &[("d", 7, Some("d7")), ("f", 10, None)]),
    (
        2,
        3,
        &[
            ("a", 3, Some("a3")),
            ("e", 4, Some("e4")),
            ("f", 2, Some("f2")),
        ],
    ),
];

/// Keys and numbers, and the file that a look-up charges.
const LOOK_UPS: [(&str, SequenceNumber, Option<(usize, FileNum)>); 11] = [
    ("a", 20, None),
    ("a", 18, Some((0, 9))),
    ("a", 16, Some((0, 9))),
    ("a", 2, Some((0, 9))),
    ("b", 20, Some((0, 9))),
    ("c", 16, Some((0, 9))),
    ("c", 14, Some((0, 9))),
    ("d", 17, Some((0, 9))),
    ("e", 20, Some((1, 7))),
    ("f", 20, None),
    ("g", 20, None),
];

// ---- the store

/// The internal key of an entry.
pub fn key_of(rt: &(impl Abort + AllocGlobal), entry: &Entry) -> Result<Bytes> {
    assert!(rt; entry.1 <= MAX_SEQUENCE_NUMBER);
    let kind = match entry.2 {
        Some(_) => ValueType::TypeValue,
        None => ValueType::TypeDeletion,
    };
    let key = LookupKey::new_full(rt.alloc(), entry.0.as_bytes(), entry.1, kind)?;
    Ok(Bytes::copy_from_slice(rt.alloc(), key.internal_key())?)
}

/// Adds entries to a builder of this order, and returns their first and last key.
fn add_entries(
    rt: &(impl Abort + AllocGlobal),
    builder: &mut Builder,
    cmp: &InternalKeyCmp<DefaultCmp>,
    compressors: &CompressorList,
    entries: &[Entry],
) -> Result<(Bytes, Bytes)> {
    let (mut first, mut last) = (Bytes::new(), Bytes::new());
    for entry in entries {
        let key = key_of(rt, entry)?;
        assert!(rt; builder.follows(&key) && cmp.accepts(&key));
        builder.add(compressors, &key, entry.2.unwrap_or("").as_bytes())?;
        if first.is_empty() {
            first = key.clone()?;
        }
        last = key;
    }
    Ok((first, last))
}

/// The table of these entries, and its first and last key.
fn table_of(
    rt: &(impl Abort + AllocGlobal),
    options: &Choices,
    entries: &[Entry],
) -> Result<(Vec<u8>, (Bytes, Bytes))> {
    let compressors = &options.compressor_list;
    let mut builder = TableBuilder::new(rt.alloc(), options, Vec::new(rt.alloc()));
    let cmp = InternalKeyCmp(options.cmp);
    let ends = add_entries(rt, &mut builder, &cmp, compressors, entries)?;
    let (table, size) = builder.finish(compressors);
    size?;
    Ok((table, ends))
}

/// Writes a table, and returns its file.
pub fn put_table(
    rt: &(impl Abort + AllocGlobal),
    env: &mut MemEnv,
    options: &Choices,
    rows: &Rows,
) -> Result<FileMetaData> {
    let (table, (smallest, largest)) = table_of(rt, options, rows.2)?;
    let number = rows.1;
    let name = format!(in rt.alloc(); "{number:06}.ldb")?;
    put(rt.alloc(), env, &name, table.as_slice())?;
    Ok(FileMetaData {
        allowed_seeks: 0,
        num: number,
        size: table.len(),
        smallest,
        largest,
    })
}

/// A version of all tables, which are written.
fn version_of_tables(
    rt: &(impl Abort + AllocGlobal),
    env: &mut MemEnv,
    options: &Choices,
) -> Result<Version<DefaultCmp>> {
    let mut files = Vec::new(rt.alloc());
    for rows in &TABLES {
        files.push((rows.0, put_table(rt, env, options, rows)?))?;
    }
    Version::of_files(rt.alloc(), DefaultCmp, files.as_slice())
}

/// A store of all tables, its version, and a cache of those that are open.
struct Opened {
    env: MemEnv,
    options: Choices,
    version: Version<DefaultCmp>,
    tables: Tables,
}

impl Drop for Opened {
    // One call for whoever drops one, in place of one for each part of it.
    fn drop(self) {
        let Opened {
            env,
            options,
            version,
            tables,
        } = self;
        drop(env);
        drop(options);
        drop(version);
        drop(tables);
    }
}

impl Opened {
    fn new(rt: &(impl Abort + AllocGlobal)) -> Result<Opened> {
        let (mut env, options) = in_memory(rt.alloc());
        let version = version_of_tables(rt, &mut env, &options)?;
        let tables = Tables::new(rt.alloc(), "db", &options)?;
        Ok(Opened {
            env,
            options,
            version,
            tables,
        })
    }

    /// What the tables have of a key at or below a number, and which file is charged.
    fn get(
        &mut self,
        rt: &(impl Abort + AllocGlobal),
        key: &str,
        last: SequenceNumber,
    ) -> Result<(Lookup<Bytes>, GetStats)> {
        assert!(rt; last <= MAX_SEQUENCE_NUMBER);
        let key = LookupKey::new(rt.alloc(), key.as_bytes(), last)?;
        assert!(rt; key.internal_key().len() >= 8);
        let (env, tables) = (&mut self.env, &mut self.tables);
        self.version
            .get(rt.alloc(), env, &self.options, tables, &key)
    }
}

// ---- look-ups

/// The newest entry of a key at or below a number, among all entries of a table.
fn newest_of(
    entries: &[Entry],
    key: &str,
    last: SequenceNumber,
    so_far: Option<Entry>,
) -> Option<Entry> {
    let mut newest = so_far;
    for entry in entries {
        let at = newest.map(|it| it.1).unwrap_or(0);
        if entry.0 == key && entry.1 <= last && at < entry.1 {
            newest = Some(*entry);
        }
    }
    newest
}

/// What all tables have of a key at or below a number, by trying each of their entries.
fn tried(key: &str, last: SequenceNumber) -> Lookup<&'static str> {
    let mut newest = None;
    for rows in &TABLES {
        newest = newest_of(rows.2, key, last, newest);
    }
    match newest {
        None => Lookup::Absent,
        Some((_, _, None)) => Lookup::Deleted,
        Some((_, _, Some(value))) => Lookup::Value(value),
    }
}

fn is_same(found: Lookup<Bytes>, wanted: Lookup<&str>) -> bool {
    match (found, wanted) {
        (Lookup::Value(value), Lookup::Value(text)) => value.as_slice() == text.as_bytes(),
        (Lookup::Deleted, Lookup::Deleted) => true,
        (Lookup::Absent, Lookup::Absent) => true,
        _ => false,
    }
}

fn assert_found(
    rt: &(impl Abort + AllocGlobal),
    opened: &mut Opened,
    row: &(&str, SequenceNumber, Option<(usize, FileNum)>),
) -> Result<()> {
    let (found, stats) = opened.get(rt, row.0, row.1)?;
    assert!(rt; is_same(found, tried(row.0, row.1)) && stats.file == row.2);
    Ok(())
}

#[test]
fn found_as_tried(rt: HostRuntime) -> Result<()> {
    let mut opened = Opened::new(&rt)?;
    for row in &LOOK_UPS {
        assert_found(&rt, &mut opened, row)?;
    }
    Ok(())
}

/// A table that is missing is damage for the keys that are looked up in it, and for no other key.
#[test]
fn missing_table(rt: HostRuntime) -> Result<()> {
    let mut opened = Opened::new(&rt)?;
    opened.env.delete(&table_file_name(rt.alloc(), "db", 7)?)?;
    for row in &LOOK_UPS[..7] {
        assert_found(&rt, &mut opened, row)?;
    }
    let missing = opened.get(&rt, "e", 20);
    assert!(rt; failed_with(missing, StatusCode::Corruption)?);
    Ok(())
}

// ---- walks over a level

type Read<'a> = ReadTables<'a, MemEnv, DefaultCmp, BloomPolicy, CompressorList>;

/// The key that a walk is at, or none.
fn here<'a, 'b, W: Walk<MemEnv, Read<'b>>>(walk: &'a W) -> &'a [u8] {
    match walk.current() {
        Some((key, _)) => key,
        None => &[],
    }
}

/// The first bytes of the keys that a walk over a level's files comes to, in its order.
fn level_keys(
    rt: &(impl Abort + AllocGlobal),
    opened: &mut Opened,
    level: usize,
) -> Result<Vec<u8>> {
    assert!(rt; level < 7);
    let mut tables = ReadTables {
        cache: &mut opened.tables,
        cmp: DefaultCmp,
        policy: opened.options.filter_policy,
        compressors: &opened.options.compressor_list,
        below: 10,
    };
    let mut keys = Vec::new(rt.alloc());
    let mut walk = new_version_iter(rt.alloc(), opened.version.files(level));
    for _ in 0..9 {
        if !walk.advance(&mut opened.env, &mut tables)? {
            break;
        }
        let key = here(&walk);
        keys.push(key.first().copied().unwrap_or(b'?'))?;
    }
    Ok(keys)
}

/// It goes from table to table, and a level without files has no pair.
#[test]
fn walked_levels(rt: HostRuntime) -> Result<()> {
    let mut opened = Opened::new(&rt)?;
    assert!(rt; level_keys(&rt, &mut opened, 1)?.as_slice() == b"abdf".as_slice());
    assert!(rt; level_keys(&rt, &mut opened, 2)?.as_slice() == b"aef".as_slice());
    assert!(rt; level_keys(&rt, &mut opened, 3)?.is_empty());
    Ok(())
}

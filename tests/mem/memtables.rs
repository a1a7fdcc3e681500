//! What is found of keys at sequence numbers before, at, between and after their versions, and what
//! failed calls leave.

use super::checks::five_changes;
use leveldb_base::cmp::DefaultCmp;
use leveldb_base::error::{Result, StatusCode};
use leveldb_base::key_types::{LookupKey, ValueType};
use leveldb_base::types::{LdbIterator, Lookup, MAX_SEQUENCE_NUMBER, SequenceNumber};
use leveldb_mem::memtable::{MemTable, MemtableIterator};
use leveldb_mem::write_batch::WriteBatch;
use std::alloc::Global;
use std::process::Abort;
use support::failed_with;

// abc has a value at 1, a deletion at 2 and a value at 5, and abd one at 3.
fn versions(alloc: Global) -> Result<MemTable<DefaultCmp>> {
    let mut table = MemTable::new(alloc, DefaultCmp);
    table.add(5, ValueType::TypeValue, b"abc", b"xyz")?;
    table.add(1, ValueType::TypeValue, b"abc", b"123")?;
    table.add(3, ValueType::TypeValue, b"abd", b"")?;
    table.add(2, ValueType::TypeDeletion, b"abc", b"")?;
    Ok(table)
}

/// A key, a number, and what is found of the key at the number: nothing, a deletion or a value.
type Newest = (&'static [u8], SequenceNumber, Lookup<&'static [u8]>);

const NEWEST: [Newest; 12] = [
    (b"abc", 0, Lookup::Absent),
    (b"abc", 1, Lookup::Value(b"123")),
    (b"abc", 2, Lookup::Deleted),
    (b"abc", 4, Lookup::Deleted),
    (b"abc", 5, Lookup::Value(b"xyz")),
    (b"abc", 99, Lookup::Value(b"xyz")),
    (b"abd", 2, Lookup::Absent),
    (b"abd", 3, Lookup::Value(b"")),
    (b"ab", 99, Lookup::Absent),
    (b"abcd", 99, Lookup::Absent),
    (b"abe", 99, Lookup::Absent),
    (b"", 99, Lookup::Absent),
];

// Asserts what is found of a row's key at its number.
fn assert_got(
    rt: &(impl Abort + AllocGlobal),
    table: &MemTable<DefaultCmp>,
    row: &Newest,
) -> Result<()> {
    let (key, sequence, wanted) = *row;
    assert!(rt; sequence < 100);
    let key = LookupKey::new(rt.alloc(), key, sequence)?;
    assert!(rt; table.get(&key) == wanted, "{row:?}");
    Ok(())
}

fn assert_each_got(rt: &(impl Abort + AllocGlobal), table: &MemTable<DefaultCmp>) -> Result<()> {
    for row in &NEWEST {
        assert_got(rt, table, row)?;
    }
    Ok(())
}

#[test]
fn newest_up_to_a_number(rt: HostRuntime) -> Result<()> {
    let table = versions(rt.alloc())?;
    assert_each_got(&rt, &table)
}

// How many entries there are, and how many bytes they count as.
fn sizes(table: &MemTable<DefaultCmp>) -> (usize, usize) {
    (table.len(), table.approx_mem_usage())
}

// What the four versions count as.
const VERSIONS_SIZE: usize = 128 + 4 * 64 + 16 + 16 + 13 + 13;

#[test]
fn present_entry_is_not_added(rt: HostRuntime) -> Result<()> {
    let mut table = versions(rt.alloc())?;
    assert!(rt; sizes(&table) == (4, VERSIONS_SIZE));
    let answer = table.add(2, ValueType::TypeValue, b"abc", b"other");
    assert!(rt; sizes(&table) == (4, VERSIONS_SIZE));
    assert!(rt; failed_with(answer, StatusCode::AlreadyExists)?);
    assert!(rt; table.newest(b"abc", 2) == Lookup::Deleted);
    Ok(())
}

/// Room for a batch leaves the entries as they are. So does a failed call, which can be made again.
#[test]
fn prepares_for_a_batch(rt: HostRuntime) -> Result<()> {
    let mut table = versions(rt.alloc())?;
    let batch = five_changes(rt.alloc())?;
    let first = table.prepare(&batch);
    assert!(rt; sizes(&table) == (4, VERSIONS_SIZE));
    if first.is_err() {
        table.prepare(&batch)?;
    }
    first
}

// The internal keys of the four versions in their order, by LevelDB's format, and their values.
const VERSIONS: [(&[u8], &[u8]); 4] = [
    (b"abc\x01\x05\0\0\0\0\0\0", b"xyz"),
    (b"abc\0\x02\0\0\0\0\0\0", b""),
    (b"abc\x01\x01\0\0\0\0\0\0", b"123"),
    (b"abd\x01\x03\0\0\0\0\0\0", b""),
];

/// Asserts that an iterator is at this pair, also once it went a step back and sought the key. It
/// leaves it a step back.
fn assert_step_back(
    rt: &impl Abort,
    it: &mut MemtableIterator<'_, DefaultCmp>,
    pair: &(&[u8], &[u8]),
) -> Result<()> {
    assert!(rt; it.current() == Some(*pair));
    assert!(rt; it.prev()? == (*pair != VERSIONS[0]));
    it.seek(pair.0)?;
    assert!(rt; it.current() == Some(*pair));
    it.prev()?;
    Ok(())
}

/// Asserts that a step goes to each pair in turn.
fn assert_steps(rt: &impl Abort, it: &mut MemtableIterator<'_, DefaultCmp>) -> Result<()> {
    for pair in &VERSIONS {
        assert!(rt; it.advance()?, "{pair:?}");
        assert!(rt; it.current() == Some(*pair), "{pair:?}");
    }
    Ok(())
}

/// Asserts that a step back goes to each pair in turn, from the last on, and then to no position.
fn assert_steps_back(rt: &impl Abort, it: &mut MemtableIterator<'_, DefaultCmp>) -> Result<()> {
    it.seek_to_last()?;
    for pair in VERSIONS.iter().rev() {
        assert_step_back(rt, it, pair)?;
    }
    assert!(rt; !it.valid());
    Ok(())
}

/// A walk passes every version, the newest of a key first, and deletions among them, both ways.
#[test]
fn walks_over_deletions(rt: HostRuntime) -> Result<()> {
    let table = versions(rt.alloc())?;
    let mut it = table.iter();
    assert_steps(&rt, &mut it)?;
    assert_steps_back(&rt, &mut it)
}

/// Puts a batch after entries that are at most at 9.
fn insert_at_ten(batch: &WriteBatch, table: &mut MemTable<DefaultCmp>) -> Result<()> {
    batch.insert_into_memtable(10, table)
}

const NEWEST_OF_CHANGES: [Newest; 14] = [
    (b"abc", 2, Lookup::Deleted),
    (b"abc", 9, Lookup::Value(b"xyz")),
    (b"abc", 10, Lookup::Value(b"def")),
    (b"abc", 99, Lookup::Value(b"def")),
    (b"123", 10, Lookup::Absent),
    (b"123", 11, Lookup::Value(b"456")),
    (b"xxx", 11, Lookup::Absent),
    (b"xxx", 12, Lookup::Value(b"yyy")),
    (b"zzz", 12, Lookup::Absent),
    (b"zzz", 13, Lookup::Deleted),
    (b"010", 13, Lookup::Absent),
    (b"010", 14, Lookup::Deleted),
    (b"abd", 99, Lookup::Value(b"")),
    (b"ab", 99, Lookup::Absent),
];

fn assert_newest(rt: &impl Abort, table: &MemTable<DefaultCmp>, rows: &[Newest]) {
    for (key, sequence, wanted) in rows {
        assert!(rt; *sequence < 100);
        let found = table.newest(key, *sequence);
        assert!(rt; found == *wanted, "{key:?} at {sequence}");
    }
}

/// Asserts what is there of the five changes after the versions.
fn assert_changes(rt: &impl Abort, table: &MemTable<DefaultCmp>) {
    assert!(rt; sizes(table) == (9, VERSIONS_SIZE + 5 * 64 + 3 * 16 + 2 * 13));
    assert_newest(rt, table, &NEWEST_OF_CHANGES);
}

/// What is found where none of the five changes came.
const NEWEST_BEFORE: [Newest; 2] = [
    (b"abc", 99, Lookup::Value(b"xyz")),
    (b"123", 99, Lookup::Absent),
];

/// Puts the five changes after the versions: all of them, and where the call fails none, so that it
/// can be made again.
fn insert_changes(
    rt: &impl Abort,
    batch: &WriteBatch,
    table: &mut MemTable<DefaultCmp>,
) -> Result<()> {
    if let Err(status) = insert_at_ten(batch, table) {
        assert!(rt; sizes(table) == (4, VERSIONS_SIZE));
        assert_newest(rt, table, &NEWEST_BEFORE);
        insert_at_ten(batch, table)?;
        assert_changes(rt, table);
        return Err(status);
    }
    assert_changes(rt, table);
    Ok(())
}

#[test]
fn takes_a_batch_whole(rt: HostRuntime) -> Result<()> {
    let mut table = versions(rt.alloc())?;
    let batch = five_changes(rt.alloc())?;
    insert_changes(&rt, &batch, &mut table)
}

/// A memtable with the five changes alone, numbered from `first` on, and what the call returned.
fn placed_at(alloc: Global, first: SequenceNumber) -> Result<(MemTable<DefaultCmp>, Result<()>)> {
    let batch = five_changes(alloc)?;
    let mut table = MemTable::new(alloc, DefaultCmp);
    let answer = batch.insert_into_memtable(first, &mut table);
    Ok((table, answer))
}

/// The greatest number is given out.
#[test]
fn greatest_number(rt: HostRuntime) -> Result<()> {
    let (table, answer) = placed_at(rt.alloc(), MAX_SEQUENCE_NUMBER - 4)?;
    answer?;
    assert!(rt; table.len() == 5);
    assert!(rt; table.newest(b"010", MAX_SEQUENCE_NUMBER) == Lookup::Deleted);
    Ok(())
}

/// No number is given out after the greatest.
#[test]
fn numbers_run_out(rt: HostRuntime) -> Result<()> {
    for first in [MAX_SEQUENCE_NUMBER - 3, MAX_SEQUENCE_NUMBER + 1, u64::MAX] {
        let (table, answer) = placed_at(rt.alloc(), first)?;
        assert!(rt; failed_with(answer, StatusCode::NotSupported)?, "{first}");
        assert!(rt; sizes(&table) == (0, 128), "{first}");
    }
    Ok(())
}

type Row = (SequenceNumber, &'static [u8], Option<&'static [u8]>);

/// What is found of a key at a number, one row after another.
fn slow_newest(rows: &[Row], key: &[u8], sequence: SequenceNumber) -> Lookup<&'static [u8]> {
    let mut newest: Option<Row> = None;
    for row in rows {
        if row.1 == key && row.0 <= sequence && newest.is_none_or(|one| one.0 < row.0) {
            newest = Some(*row);
        }
    }
    match newest {
        None => Lookup::Absent,
        Some((_, _, None)) => Lookup::Deleted,
        Some((_, _, Some(value))) => Lookup::Value(value),
    }
}

// Newer versions before older ones, and keys of which some begin others.
const ROWS: [Row; 12] = [
    (40, b"b", Some(b"b40")),
    (35, b"", None),
    (30, b"a", Some(b"")),
    (31, b"aa", Some(b"aa31")),
    (20, b"b", None),
    (12, b"\xff", Some(b"last")),
    (11, b"ab", Some(b"ab11")),
    (10, b"a", Some(b"a10")),
    (9, b"", Some(b"nothing")),
    (7, b"a\0", None),
    (5, b"b", Some(b"b5")),
    (1, b"aa", None),
];

const KEYS: [&[u8]; 9] = [
    b"",
    b"\0",
    b"a",
    b"a\0",
    b"aa",
    b"ab",
    b"b",
    b"\xff",
    b"\xff\xff",
];

fn assert_rows(rt: &impl Abort, table: &MemTable<DefaultCmp>, rows: &[Row]) {
    for key in KEYS {
        for sequence in 0..42 {
            assert!(rt;
                table.newest(key, sequence) == slow_newest(rows, key, sequence),
                "{key:?} at {sequence}"
            );
        }
    }
}

/// The kind and the bytes of a value, or of a deletion.
fn type_and_bytes(value: Option<&[u8]>) -> (ValueType, &[u8]) {
    match value {
        None => (ValueType::TypeDeletion, &[]),
        Some(bytes) => (ValueType::TypeValue, bytes),
    }
}

fn add(rt: &impl Abort, table: &mut MemTable<DefaultCmp>, row: &Row) -> Result<()> {
    let (sequence, key, value) = *row;
    let (kind, bytes) = type_and_bytes(value);
    assert!(rt; sequence < 100);
    table.add(sequence, kind, key, bytes)
}

/// Adds the last of these rows to the others. A failed call leaves the others as they were, and can
/// be made again.
fn add_last(rt: &impl Abort, table: &mut MemTable<DefaultCmp>, rows: &[Row]) -> Result<()> {
    let Some((row, others)) = rows.split_last() else {
        return Ok(());
    };
    let before = sizes(table);
    let first = add(rt, table, row);
    if first.is_err() {
        assert!(rt; sizes(table) == before);
        assert_rows(rt, table, others);
        add(rt, table, row)?;
    }
    assert_rows(rt, table, rows);
    first
}

/// Adds one row after another.
fn add_each(rt: &impl Abort, table: &mut MemTable<DefaultCmp>) -> Result<()> {
    for count in 0..12 {
        add_last(rt, table, &ROWS[..=count])?;
    }
    Ok(())
}

/// Each row is found as soon as it is added, and those before it stay.
#[test]
fn older_ones_come_later(rt: HostRuntime) -> Result<()> {
    let mut table = MemTable::new(rt.alloc(), DefaultCmp);
    assert_rows(&rt, &table, &[]);
    add_each(&rt, &mut table)
}

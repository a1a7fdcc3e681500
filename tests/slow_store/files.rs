//! The files of a store by name: its manifest, its tables and its logs, and what they hold.
use crate::set::FileSet;
use crate::table::{Pair, table_pairs};
use leveldb_base::cmp::Cmp;
use leveldb_base::error::{Result, StatusCode, err};
use leveldb_base::key_types::{TAG_LEN, ValueType, parse_internal_key};
use leveldb_base::names::{current_file_name, log_file_name, parse_file_name, table_file_name};
use leveldb_base::types::{FileMetaData, FileNum, FileType, MAX_SEQUENCE_NUMBER, SequenceNumber};
use leveldb_env::env::Env;
use leveldb_env::env::whole_files::read_file;
use leveldb_mem::log::read_log_file;
use leveldb_mem::write_batch::WriteBatch;
use leveldb_version::version_edit::VersionEdit;
use leveldb_version_set::version_set::parse_current_text;
use slow_history::Entry;
use std::alloc::Global;
use std::cmp::Ordering;

/// What a store's files hold: the comparator's name, the entries of tables and then those of logs,
/// how many of them are tables', and the greatest number that manifest and logs know of.
#[derive(Debug, Drop)]
pub struct Contents {
    pub comparator: String,
    pub entries: Vec<Entry>,
    pub in_tables: usize,
    pub last: SequenceNumber,
}

/// A live table and its entries.
#[derive(Debug, Drop)]
struct LiveTable {
    level: usize,
    file: FileMetaData,
    entries: Vec<Entry>,
}

fn damaged<T>(alloc: Global) -> Result<T> {
    err(alloc, StatusCode::Corruption, "the files are no store")
}

/// The set that the manifest in use leaves.
fn read_manifest<E: Env>(alloc: Global, env: &mut E, store: &str) -> Result<FileSet> {
    let current = current_file_name(alloc, store)?;
    let text = read_file(alloc, env, &current)?;
    let (name, _) = parse_current_text(alloc, text.as_slice())?;
    let path = format!(in alloc; "{store}/{name}")?;
    read_file(alloc, env, &path)?;
    let (records, _) = read_log_file(alloc, env, &path)?;
    let mut set = FileSet::new(alloc);
    for record in &records {
        set.apply(alloc, VersionEdit::decode_from(alloc, record.as_slice())?)?;
    }
    Ok(set)
}

// ---- logs

/// Whether the name is the one that a store gives to its log of this number.
fn is_log_name(alloc: Global, name: &str, number: FileNum) -> Result<bool> {
    Ok(format!(in alloc; "{number:06}.log")?.as_str() == name)
}

/// The numbers of the logs that are replayed, in rising order.
fn log_numbers(alloc: Global, names: &[String], set: &FileSet) -> Result<Vec<FileNum>> {
    let mut numbers = Vec::new(alloc);
    for name in names {
        if let Ok((number, FileType::Log)) = parse_file_name(alloc, name.as_str()) {
            if set.replays(number) {
                if !is_log_name(alloc, name.as_str(), number)? {
                    return damaged(alloc);
                }
                numbers.push(number)?;
            }
        }
    }
    numbers.sort()?;
    Ok(numbers)
}

/// The entries of a batch whose first is above a number, and the number of the last.
fn add_batch(
    alloc: Global,
    batch: &WriteBatch,
    last: SequenceNumber,
    entries: &mut Vec<Entry>,
) -> Result<SequenceNumber> {
    let mut next = batch.sequence();
    if next <= last || next > MAX_SEQUENCE_NUMBER {
        return damaged(alloc);
    }
    let mut reached = last;
    for (key, value) in batch.iter() {
        if next > MAX_SEQUENCE_NUMBER {
            return damaged(alloc);
        }
        entries.push(Entry {
            sequence: next,
            key: Vec::from_slice(alloc, key)?,
            value: match value {
                Some(value) => Some(Vec::from_slice(alloc, value)?),
                None => None,
            },
        })?;
        reached = next;
        next += 1;
    }
    Ok(reached)
}

/// The entries of a log's records after those up to a number, and the number of the last.
fn add_records(
    alloc: Global,
    records: &[Vec<u8>],
    last: SequenceNumber,
    entries: &mut Vec<Entry>,
) -> Result<SequenceNumber> {
    let mut batch = WriteBatch::new(alloc)?;
    let mut reached = last;
    for record in records {
        if batch.set_contents(record.as_slice()).is_err() {
            return damaged(alloc);
        }
        reached = add_batch(alloc, &batch, reached, entries)?;
    }
    Ok(reached)
}

/// The entries of all logs, one after another. After a bad end the later ones are empty.
fn read_logs<E: Env>(
    alloc: Global,
    env: &mut E,
    store: &str,
    numbers: &[FileNum],
) -> Result<Vec<Entry>> {
    let mut entries = Vec::new(alloc);
    let mut last = 0;
    let mut ended = false;
    for number in numbers {
        let path = log_file_name(alloc, store, *number)?;
        let bytes = read_file(alloc, env, &path)?;
        if ended && !bytes.is_empty() {
            return damaged(alloc);
        }
        let (records, clean) = read_log_file(alloc, env, &path)?;
        last = add_records(alloc, records.as_slice(), last, &mut entries)?;
        ended = ended || !clean;
    }
    Ok(entries)
}

// ---- tables

/// Whether a key has a tag whose kind is a deletion's or a value's.
pub fn is_internal_key(key: &[u8]) -> bool {
    let Some(from) = key.len().checked_sub(TAG_LEN) else {
        return false;
    };
    match key.get(from) {
        Some(kind) => *kind <= 1,
        None => false,
    }
}

/// The entry that a table's pair is. The value beside a deletion's key is ignored.
pub fn entry_of(alloc: Global, pair: Pair) -> Result<Entry> {
    let (key, value) = pair;
    if key.len() < TAG_LEN || !is_internal_key(key.as_slice()) {
        return damaged(alloc);
    }
    let (kind, sequence, user) = parse_internal_key(key.as_slice());
    Ok(Entry {
        sequence,
        key: Vec::from_slice(alloc, user)?,
        value: match kind {
            ValueType::TypeValue => Some(value),
            ValueType::TypeDeletion => None,
        },
    })
}

/// Whether the first and the last key are those that the edit says.
fn has_range(pairs: &[Pair], file: &FileMetaData) -> bool {
    match (pairs.first(), pairs.last()) {
        (Some(first), Some(last)) => {
            first.0.as_slice() == &*file.smallest && last.0.as_slice() == &*file.largest
        }
        _ => false,
    }
}

/// The table that a file is.
fn read_table<E: Env, C: Cmp>(
    alloc: Global,
    env: &mut E,
    cmp: &C,
    store: &str,
    level: usize,
    file: FileMetaData,
) -> Result<LiveTable> {
    let path = table_file_name(alloc, store, file.num)?;
    let bytes = read_file(alloc, env, &path)?;
    let Some(pairs) = table_pairs(alloc, cmp, bytes.as_slice())? else {
        return damaged(alloc);
    };
    if bytes.len() != file.size || !has_range(pairs.as_slice(), &file) {
        return damaged(alloc);
    }
    let mut entries = Vec::new(alloc);
    for pair in pairs {
        entries.push(entry_of(alloc, pair)?)?;
    }
    Ok(LiveTable {
        level,
        file,
        entries,
    })
}

// ---- how they fit together

/// Whether each entry of the older is below each of the newer that has its key.
fn is_older(older: &[Entry], newer: &[Entry]) -> bool {
    for a in older {
        for b in newer {
            if a.key.as_slice() == b.key.as_slice() && a.sequence >= b.sequence {
                return false;
            }
        }
    }
    true
}

/// The user key of an internal key of eight bytes or more.
fn user_key(key: &[u8]) -> &[u8] {
    key.get(..key.len().saturating_sub(TAG_LEN))
        .unwrap_or_default()
}

/// Whether the keys of one end before those of the other begin.
fn are_disjoint<C: Cmp>(cmp: &C, a: &FileMetaData, b: &FileMetaData) -> bool {
    cmp.cmp(user_key(&a.largest), user_key(&b.smallest)) == Ordering::Less
        || cmp.cmp(user_key(&b.largest), user_key(&a.smallest)) == Ordering::Less
}

/// Whether two tables are in the order of their levels.
fn are_in_order<C: Cmp>(cmp: &C, a: &LiveTable, b: &LiveTable) -> bool {
    if a.level < b.level {
        return is_older(b.entries.as_slice(), a.entries.as_slice());
    }
    if a.level != b.level || a.file.num == b.file.num {
        return true;
    }
    if a.level > 0 {
        return are_disjoint(cmp, &a.file, &b.file);
    }
    a.file.num > b.file.num || is_older(a.entries.as_slice(), b.entries.as_slice())
}

/// Whether the levels are in order.
fn levels_hold<C: Cmp>(cmp: &C, tables: &[LiveTable]) -> bool {
    tables
        .iter()
        .all(|a| tables.iter().all(|b| are_in_order(cmp, a, b)))
}

/// Whether the entries of a table have numbers from 1 to the last, and below those of the logs.
fn is_numbered(table: &LiveTable, last: SequenceNumber, logged: &[Entry]) -> bool {
    let most = match logged.first() {
        Some(entry) => entry.sequence,
        None => SequenceNumber::MAX,
    };
    table.entries.iter().all(|entry| 0 < entry.sequence
        && entry.sequence <= last
        && entry.sequence < most)
}

/// The contents of tables and logs, where they fit together.
fn gather<C: Cmp>(
    alloc: Global,
    cmp: &C,
    comparator: String,
    last: SequenceNumber,
    tables: Vec<LiveTable>,
    logged: Vec<Entry>,
) -> Result<Contents> {
    let mut entries = Vec::new(alloc);
    let in_order = levels_hold(cmp, tables.as_slice());
    for table in tables {
        if !in_order || !is_numbered(&table, last, logged.as_slice()) {
            return damaged(alloc);
        }
        for entry in table.entries {
            entries.push(entry)?;
        }
    }
    let in_tables = entries.len();
    let mut greatest = last;
    for entry in logged {
        greatest = greatest.max(entry.sequence);
        entries.push(entry)?;
    }
    Ok(Contents {
        comparator,
        entries,
        in_tables,
        last: greatest,
    })
}

/// Whether one of the names is a table's or a log's.
fn has_parts(alloc: Global, names: &[String]) -> bool {
    names.iter().any(|name| {
        matches!(
            parse_file_name(alloc, name.as_str()),
            Ok((_, FileType::Table)) | Ok((_, FileType::Log))
        )
    })
}

/// What the files of the store in this folder hold, or none where no store is there. `Corruption`
/// where they are no store.
pub fn read_store<E: Env, C: Cmp>(
    alloc: Global,
    env: &mut E,
    cmp: &C,
    store: &str,
) -> Result<Option<Contents>> {
    let names = env.children(alloc, store)?;
    if !names.iter().any(|name| name.as_str() == "CURRENT") {
        if has_parts(alloc, names.as_slice()) {
            return damaged(alloc);
        }
        return Ok(None);
    }
    let set = read_manifest(alloc, env, store)?;
    let numbers = log_numbers(alloc, names.as_slice(), &set)?;
    let (Some(comparator), Some(_), Some(_), Some(last)) = (
        set.comparator,
        set.log,
        set.next_file,
        set.last,
    ) else {
        return damaged(alloc);
    };
    let mut tables = Vec::new(alloc);
    for (level, file) in set.files {
        tables.push(read_table(alloc, env, cmp, store, level, file)?)?;
    }
    let logged = read_logs(alloc, env, store, numbers.as_slice())?;
    Ok(Some(gather(alloc, cmp, comparator, last, tables, logged)?))
}

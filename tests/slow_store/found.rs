//! What is found in a store's folder, whether a manifest names it or not.
use crate::files::{entry_of, is_internal_key};
use crate::table::table_pairs;
use leveldb_base::cmp::Cmp;
use leveldb_base::error::{Result, StatusCode};
use leveldb_base::names::parse_file_name;
use leveldb_base::types::{FileType, MAX_SEQUENCE_NUMBER};
use leveldb_env::env::Env;
use leveldb_env::env::whole_files::read_file;
use leveldb_mem::log::read_log_file;
use leveldb_mem::write_batch::WriteBatch;
use slow_history::Entry;
use std::alloc::Global;

/// What is found: how many tables and logs are there, readable or not, and the entries of those
/// that are, each as often as it is there.
#[derive(Debug, Drop)]
pub struct Found {
    pub files: usize,
    pub entries: Vec<Entry>,
}

/// The entries of a table, or none if it isn't readable: each key has its tag, and a number from 1
/// on.
fn table_entries<C: Cmp>(alloc: Global, cmp: &C, bytes: &[u8]) -> Result<Option<Vec<Entry>>> {
    let Some(pairs) = table_pairs(alloc, cmp, bytes)? else {
        return Ok(None);
    };
    let mut entries = Vec::new(alloc);
    for pair in pairs {
        if !is_internal_key(pair.0.as_slice()) {
            return Ok(None);
        }
        let entry = entry_of(alloc, pair)?;
        if entry.sequence == 0 {
            return Ok(None);
        }
        entries.push(entry)?;
    }
    Ok(Some(entries))
}

/// The entries of a record, or none if it is no batch with numbers from 1 to the greatest.
fn record_entries(alloc: Global, record: &[u8]) -> Result<Option<Vec<Entry>>> {
    let mut batch = WriteBatch::new(alloc)?;
    match batch.set_contents(record) {
        Ok(()) => {}
        Err(status) if status.code == StatusCode::OutOfMemory => return Err(status),
        Err(_) => return Ok(None),
    }
    let mut next = batch.sequence();
    if next == 0 || next > MAX_SEQUENCE_NUMBER {
        return Ok(None);
    }
    let mut entries = Vec::new(alloc);
    for (key, value) in batch.iter() {
        if next > MAX_SEQUENCE_NUMBER {
            return Ok(None);
        }
        entries.push(Entry {
            sequence: next,
            key: Vec::from_slice(alloc, key)?,
            value: match value {
                Some(value) => Some(Vec::from_slice(alloc, value)?),
                None => None,
            },
        })?;
        next += 1;
    }
    Ok(Some(entries))
}

/// Adds the entries of a log's records, up to the first that has none.
fn add_log(alloc: Global, records: &[Vec<u8>], entries: &mut Vec<Entry>) -> Result<()> {
    for record in records {
        let Some(more) = record_entries(alloc, record.as_slice())? else {
            return Ok(());
        };
        for entry in more {
            entries.push(entry)?;
        }
    }
    Ok(())
}

/// What is found in this folder, read plainly. It knows no compressor: a table with a block that
/// isn't stored as it is isn't readable here.
pub fn read_found<E: Env, C: Cmp>(
    alloc: Global,
    env: &mut E,
    cmp: &C,
    store: &str,
) -> Result<Found> {
    let mut found = Found {
        files: 0,
        entries: Vec::new(alloc),
    };
    for name in &env.children(alloc, store)? {
        let Ok((_, kind)) = parse_file_name(alloc, name) else {
            continue;
        };
        let path = format!(in alloc; "{store}/{name}")?;
        if kind == FileType::Log {
            found.files += 1;
            let (records, _) = read_log_file(alloc, env, &path)?;
            add_log(alloc, records.as_slice(), &mut found.entries)?;
        }
        if kind == FileType::Table {
            found.files += 1;
            let bytes = read_file(alloc, env, &path)?;
            if let Some(more) = table_entries(alloc, cmp, bytes.as_slice())? {
                for entry in more {
                    found.entries.push(entry)?;
                }
            }
        }
    }
    Ok(found)
}

//! The files of small stores, written by hand, and what they hold.
use leveldb_base::cmp::DefaultCmp;
use leveldb_base::error::Result;
use leveldb_base::types::SequenceNumber;
use leveldb_env::env::whole_files::{read_file, replace_file};
use leveldb_env::mem_env::MemEnv;
use leveldb_mem::log::LogWriter;
use leveldb_mem::write_batch::WriteBatch;
use slow_store::{Contents, read_store};
use std::alloc::Global;

/// A number, a key, and its value or a deletion.
pub type Row = (SequenceNumber, &'static [u8], Option<&'static [u8]>);

/// The entry of both tables.
pub const A: Row = (1, b"a", Some(b"1"));

/// The second entry of `PAIR_TABLE`.
pub const B: Row = (2, b"b", Some(b"2"));

pub const C: Row = (3, b"c", None);

// ---- bytes

/// The manifest of a new store: one edit, of the comparator, log 0, next file 2, last number 0.
pub const NEW_MANIFEST: &[u8] = b"\
    \x95\x7c\xb9\xc5\x22\x00\x01\
    \x01\x1aleveldb.BytewiseComparator\
    \x02\x00\x03\x02\x04\x00";

/// The record of an edit: log 4, previous log 0, next file 6, last number 1, and table 5 in
/// level 2.
pub const TABLE_EDIT: &[u8] = b"\
    \x80pP\x8d\x21\x00\x01\
    \x02\x04\x09\x00\x03\x06\x04\x01\
    \x07\x02\x05\xb1\x01\
    \x09a\x01\x01\x00\x00\x00\x00\x00\x00\x09a\x01\x01\x00\x00\x00\x00\x00\x00";

/// The record of an edit: last number 2^56, which no entry can have.
pub const PAST_EDIT: &[u8] = b"\
    v\xa1\x16\xbc\x0a\x00\x01\
    \x04\x80\x80\x80\x80\x80\x80\x80\x80\x01";

/// A manifest of one edit: the comparator, log 6, previous log 0, next file 7, last number 3.
pub const LATER_MANIFEST: &[u8] = b"\
    \x3f\xcf\xa1\xcc\x24\x00\x01\
    \x01\x1aleveldb.BytewiseComparator\
    \x02\x06\x09\x00\x03\x07\x04\x03";

/// A manifest of two: the comparator; log 3, previous log 0, next file 5, last number 1.
pub const NEXT_MANIFEST: &[u8] = b"\
    V\xf9\xb8\xf8\x1c\x00\x01\
    \x01\x1aleveldb.BytewiseComparator\
    p\x0au\xe1\x08\x00\x01\
    \x02\x03\x09\x00\x03\x05\x04\x01";

/// A table of the entry `A` with a filter: the block at 0, the filter at 26, the metaindex at 49,
/// the index at 101, the footer at 129.
pub const TABLE: &[u8] = b"\
    \x00\x09\x01a\x01\x01\x00\x00\x00\x00\x00\x00\x31\x00\x00\x00\x00\x01\x00\x00\x00\
    \x00\x82\x7e\xf9\x3a\
    \x08\x10\x20\x40\x80\x00\x01\x00\x06\x00\x00\x00\x00\x09\x00\x00\x00\x0b\
    \x00\x81\xa4\xa9\xe8\
    \x00\x22\x02\
    filter.leveldb.BuiltinBloomFilter\x32\
    \x1a\x12\x00\x00\x00\x00\x01\x00\x00\x00\
    \x00\x2b\x90\xff\xd7\
    \x00\x0a\x02a\x00\x01\x01\x00\x00\x00\x00\x00\x00\x00\x15\x00\x00\x00\x00\x01\x00\x00\x00\
    \x00\xfe\xdc\xabk\
    \x31\x2fe\x17\
    \x00\x00\x00\x00\x00\x00\x00\x00\x00\x00\x00\x00\x00\x00\x00\x00\x00\x00\
    \x00\x00\x00\x00\x00\x00\x00\x00\x00\x00\x00\x00\x00\x00\x00\x00\x00\x00\
    W\xfb\x80\x8b\x24uG\xdb";

/// The record of an edit: log 5, previous log 0, next file 6, last number 2, and table 4 in
/// level 0.
pub const PAIR_EDIT: &[u8] = b"\
    \xca\x97\xd1\x0b\x21\x00\x01\
    \x02\x05\x09\x00\x03\x06\x04\x02\
    \x07\x00\x04\xbe\x01\
    \x09a\x01\x01\x00\x00\x00\x00\x00\x00\x09b\x01\x02\x00\x00\x00\x00\x00\x00";

/// A table of the entries `A` and `B`: the block at 0, the filter at 39, the metaindex at 62,
/// the index at 114, the footer at 142.
pub const PAIR_TABLE: &[u8] = b"\
    \x00\x09\x01a\x01\x01\x00\x00\x00\x00\x00\x00\x31\
    \x00\x09\x01b\x01\x02\x00\x00\x00\x00\x00\x00\x32\x00\x00\x00\x00\x01\x00\x00\x00\
    \x00\x3e\xe8\xe4\x2c\
    \x18\x30\x60\xc0\x80\x01\x03\x00\x06\x00\x00\x00\x00\x09\x00\x00\x00\x0b\
    \x00\x10c\xb7\xf6\
    \x00\x22\x02\
    filter.leveldb.BuiltinBloomFilter\x32\
    \x27\x12\x00\x00\x00\x00\x01\x00\x00\x00\
    \x00i\x9d\x60\x9e\
    \x00\x0a\x02b\x00\x01\x02\x00\x00\x00\x00\x00\x00\x00\x22\x00\x00\x00\x00\x01\x00\x00\x00\
    \x00\xd6\x1a\xa8q\
    \x3e\x2fr\x17\
    \x00\x00\x00\x00\x00\x00\x00\x00\x00\x00\x00\x00\x00\x00\x00\x00\x00\x00\
    \x00\x00\x00\x00\x00\x00\x00\x00\x00\x00\x00\x00\x00\x00\x00\x00\x00\x00\
    W\xfb\x80\x8b\x24uG\xdb";

// ---- making files

/// Makes a file of the store.
pub fn put(alloc: Global, env: &mut MemEnv, name: &str, bytes: &[u8]) -> Result<()> {
    let path = format!(in alloc; "db/{name}")?;
    if path.as_str() == "temp" {
        return Ok(());
    }
    replace_file(alloc, env, "temp", &path, bytes)
}

/// The bytes of a file of the store.
pub fn bytes_of(alloc: Global, env: &mut MemEnv, name: &str) -> Result<Vec<u8>> {
    let path = format!(in alloc; "db/{name}")?;
    read_file(alloc, env, &path)
}

/// The record of a batch of one row.
fn record_of(alloc: Global, row: &Row) -> Result<Vec<u8>> {
    let (sequence, key, value) = row;
    let mut batch = WriteBatch::new(alloc)?;
    match value {
        Some(value) => batch.put(key, value)?,
        None => batch.delete(key)?,
    }
    Ok(batch.encode(*sequence))
}

/// Makes a log of these rows, each in a batch of its own: 24 bytes for a value of one byte under a
/// key of one, and 22 for its deletion.
pub fn put_log(alloc: Global, env: &mut MemEnv, name: &str, rows: &[Row]) -> Result<()> {
    let mut writer = LogWriter::new(alloc, Vec::new(alloc));
    for row in rows {
        writer.add_record(record_of(alloc, row)?.as_slice())?;
    }
    put(alloc, env, name, writer.sink.as_slice())
}

/// A store of manifest 1 alone, which is a new store's and then another edit.
pub fn store_of(alloc: Global, edit: &[u8]) -> Result<MemEnv> {
    let mut env = MemEnv::new(alloc);
    let mut manifest = Vec::from_slice(alloc, NEW_MANIFEST)?;
    manifest.extend_from_slice(edit)?;
    put(alloc, &mut env, "MANIFEST-000001", manifest.as_slice())?;
    put(alloc, &mut env, "CURRENT", b"MANIFEST-000001\n")?;
    Ok(env)
}

// ---- what they hold

/// What the slow store reads.
pub fn read(alloc: Global, env: &mut MemEnv) -> Result<Option<Contents>> {
    read_store(alloc, env, &DefaultCmp, "db")
}

/// Whether contents are these rows, in their order, up to a last number.
pub fn are_rows(contents: Option<Contents>, rows: &[Row], last: SequenceNumber) -> bool {
    let Some(contents) = contents else {
        return false;
    };
    contents.last == last
        && contents.comparator.as_str() == "leveldb.BytewiseComparator"
        && contents.entries.len() == rows.len()
        && contents.entries.iter().zip(rows.iter()).all(|(entry, row)| {
            entry.sequence == row.0
                && entry.key.as_slice() == row.1
                && entry.value.as_ref().map(|value| value.as_slice()) == row.2
        })
}

//! A live table without pairs, between two others of its level, which no store of ours makes: walks
//! and compactions fail at it, and none passes it over or ends there.
use super::stores::{DefaultOptions, STORE, one_byte, opened, opened_db};
use bytes::Bytes;
use leveldb_base::error::{Result, StatusCode};
use leveldb_base::key_types::LookupKey;
use leveldb_base::types::{FileMetaData, FileNum, SequenceNumber};
use leveldb_env::env::Env;
use leveldb_env::mem_env::MemEnv;
use leveldb_env::options::Options;
use leveldb_mem::log::LogWriter;
use leveldb_table::table_builder::TableBuilder;
use leveldb_version::version_edit::VersionEdit;
use std::alloc::Global;
use support::{failed_with, put_file};

/// A table of level 1: its number, the key that its edit gives as its first and last, the number of
/// that key's entry, and whether it has the entry.
type Row = (FileNum, &'static str, SequenceNumber, bool);

const TABLES: [Row; 3] = [(4, "a", 1, true), (5, "b", 2, false), (6, "c", 3, true)];

/// A table of one pair, or of none.
fn table_of(alloc: Global, key: &[u8], has_pair: bool) -> Result<Vec<u8>> {
    let options: DefaultOptions = Options::default();
    let mut builder = TableBuilder::new(alloc, &options, Vec::new(alloc));
    if has_pair {
        builder.add(&options.compressor_list, key, b"1")?;
    }
    let (table, size) = builder.finish(&options.compressor_list);
    size?;
    Ok(table)
}

/// Writes a table, and returns its file.
fn put_table(alloc: Global, env: &mut MemEnv, row: &Row) -> Result<FileMetaData> {
    let (num, user, sequence, has_pair) = *row;
    let key = LookupKey::new(alloc, user.as_bytes(), sequence)?;
    let table = table_of(alloc, key.internal_key(), has_pair)?;
    let name = format!(in alloc; "{num:06}.ldb")?;
    put_file(alloc, env, &name, table.as_slice())?;
    Ok(FileMetaData {
        allowed_seeks: 0,
        num,
        size: table.len(),
        smallest: Bytes::copy_from_slice(alloc, key.internal_key())?,
        largest: Bytes::copy_from_slice(alloc, key.internal_key())?,
    })
}

/// A store of these three tables.
fn store_of_tables(alloc: Global) -> Result<MemEnv> {
    let mut env = MemEnv::new(alloc);
    let mut edit = VersionEdit::new(alloc);
    edit.set_comparator_name("leveldb.BytewiseComparator")?;
    edit.set_log_num(3);
    edit.set_next_file(7);
    edit.set_last_seq(3);
    for row in &TABLES {
        let file = put_table(alloc, &mut env, row)?;
        edit.add_file(1, file)?;
    }
    let mut manifest = LogWriter::new(alloc, Vec::new(alloc));
    manifest.add_record(edit.encode(alloc)?.as_slice())?;
    put_file(alloc, &mut env, "MANIFEST-000001", manifest.sink.as_slice())?;
    put_file(alloc, &mut env, "CURRENT", b"MANIFEST-000001\n")?;
    Ok(env)
}

/// A walk forward isn't at its end there, nor is one back, and the tables beside it are read.
#[test]
fn walks_fail_there(rt: HostRuntime) -> Result<()> {
    let alloc = rt.alloc();
    let mut env = store_of_tables(alloc)?;
    let mut db = opened_db(alloc, &mut env, Options::default())?;
    let mut it = db.new_iter()?;
    assert!(rt; it.advance()?);
    assert!(rt; failed_with(it.advance(), StatusCode::Corruption)?);
    assert!(rt; !it.valid());
    it.seek(b"c")?;
    assert!(rt; it.current() == Some((b"c".as_slice(), b"1".as_slice())));
    assert!(rt; failed_with(it.prev(), StatusCode::Corruption)?);
    assert!(rt; !it.valid());
    drop(it);
    db.abandon()
}

/// A compaction fails, and its tables stay, so that what is in the others is found, also later.
#[test]
fn compactions_fail_there(rt: HostRuntime) -> Result<()> {
    let alloc = rt.alloc();
    let mut env = store_of_tables(alloc)?;
    for _ in 0..2 {
        let mut engine = opened(alloc, &mut env, Options::default())?;
        let compacted = engine.compact_range(&mut env, b"", b"");
        assert!(rt; failed_with(compacted, StatusCode::Corruption)?);
        for key in [b"a", b"c"] {
            assert!(rt; one_byte(engine.get(&mut env, key)?) == b'1');
        }
        engine.abandon(&mut env)?;
        for row in &TABLES {
            let num = row.0;
            let path = format!(in alloc; "{STORE}/{num:06}.ldb")?;
            assert!(rt; env.exists(&path)?, "{path}");
        }
    }
    Ok(())
}

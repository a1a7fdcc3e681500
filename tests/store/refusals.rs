//! What isn't opened: an opening fails, changes no file but the lock's, and gives back the lock.
use super::acts::{Act, Setting, is_damaged, play_each};
use super::stores::{DefaultOptions, Row, STORE, opened, reopen, reusing, store_of};
use leveldb_base::error::{Result, Status, StatusCode};
use leveldb_env::mem_env::MemEnv;
use rusty_leveldb::db_impl::ReadOnlyEngine;
use std::alloc::Global;
use support::{answered, file_bytes, put_file};

/// A store that must not be.
const UNWANTED: &[Act] = &[
    Act::Put(Setting::Defaults, &[("a", "1")]),
    Act::HasFiles("000003.log:24 CURRENT:16 LOCK:0 MANIFEST-000001:41 "),
    Act::Fails(Setting::MustBeNew, StatusCode::AlreadyExists),
    Act::HasFiles("000003.log:24 CURRENT:16 LOCK:0 MANIFEST-000001:41 "),
];

/// A store that must be.
const MISSING: &[Act] = &[
    Act::Fails(Setting::MustExist, StatusCode::InvalidArgument),
    Act::HasFiles("LOCK:0 "),
];

/// Whether a folder with this file and a lock alone is damaged.
fn is_damaged_beside(alloc: Global, name: &str) -> Result<bool> {
    let mut env = MemEnv::new(alloc);
    put_file(alloc, &mut env, "LOCK", b"")?;
    put_file(alloc, &mut env, name, b"")?;
    is_damaged(alloc, &mut env)
}

/// A table or a log where `CURRENT` is missing.
#[test]
fn without_current(rt: HostRuntime) -> Result<()> {
    for name in &["000005.ldb", "5.sst", "000003.log", "3.log"] {
        assert!(rt; is_damaged_beside(rt.alloc(), *name)?);
    }
    Ok(())
}

/// A live table that is missing, or there under another name.
const WITHOUT_A_TABLE: &[Act] = &[
    Act::Put(Setting::Defaults, &[("a", "1")]),
    Act::Open(Setting::Reuses(false, true)),
    Act::Rename("db/000004.ldb", "db/000004.sst"),
    Act::IsDamaged,
    Act::Delete("db/000004.sst"),
    Act::IsDamaged,
];

/// A store whose one live table, of 177 bytes, is cut to this many, or has zeros up to so many.
fn with_table_of(alloc: Global, size: usize) -> Result<MemEnv> {
    let mut env = store_of(alloc, &[("a", "1")])?;
    reopen(alloc, &mut env, reusing(false, true))?;
    let mut bytes = file_bytes(alloc, &mut env, "000004.ldb")?;
    bytes.truncate(size);
    while bytes.len() < size {
        bytes.push(0)?;
    }
    put_file(alloc, &mut env, "000004.ldb", &bytes)?;
    Ok(env)
}

/// Whether the status is of damage and has this text, or none.
fn says(status: &Status, wanted: &str) -> bool {
    status.code == StatusCode::Corruption
        && status
            .err
            .as_ref()
            .is_none_or(|text| text.as_str() == wanted)
}

/// A live table of another size than its edit says is damage, to an opening and to one that only
/// reads, and the text has both sizes.
#[test]
fn a_table_of_another_size(rt: HostRuntime) -> Result<()> {
    let alloc = rt.alloc();
    for size in [0, 176, 178, 354] {
        let mut env = with_table_of(alloc, size)?;
        assert!(rt; is_damaged(alloc, &mut env)?, "{size}");
        let wanted = format!(in alloc;
            "Corruption: db/000004.ldb has {size} bytes, and the manifest says 177"
        )?;
        match answered(opened(alloc, &mut env, DefaultOptions::default()))? {
            Ok(_) => assert!(rt; false, "{size}"),
            Err(status) => assert!(rt; says(&status, &wanted), "{size}: {status:?}"),
        }
        let alone = ReadOnlyEngine::open(alloc, STORE, &mut env, DefaultOptions::default());
        match answered(alone)? {
            Ok(_) => assert!(rt; false, "{size}, read alone"),
            Err(status) => assert!(rt; says(&status, &wanted), "{size}, read alone: {status:?}"),
        }
    }
    let mut env = with_table_of(alloc, 177)?;
    drop(ReadOnlyEngine::open(alloc, STORE, &mut env, DefaultOptions::default())?);
    reopen(alloc, &mut env, DefaultOptions::default())
}

/// A log under another name of its number, which counts where that number is replayed; elsewhere it
/// is an obsolete file.
const MISNAMED_LOGS: &[Act] = &[
    Act::Put(Setting::Defaults, &[("a", "1")]),
    Act::Make("0004.log", b""),
    Act::IsDamaged,
    Act::Delete("db/0004.log"),
    Act::Open(Setting::Reuses(false, true)),
    Act::Make("3.log", b""),
    Act::Open(Setting::Defaults),
    Act::HasFiles("000004.ldb:177 000005.log:0 CURRENT:16 LOCK:0 MANIFEST-000001:81 "),
];

/// The rows of a log.
const A: Row = (1, "a");

const B: Row = (2, "b");

/// A log after one that ends badly: it must be empty. A refused opening may leave a table that it
/// made.
const AFTER_A_BAD_END: &[Act] = &[
    Act::Open(Setting::Defaults),
    Act::Log("000003.log", &[A, B]),
    Act::Cut("000003.log", 47),
    Act::Log("000004.log", &[B]),
    Act::Fails(Setting::Defaults, StatusCode::Corruption),
    Act::Log("000004.log", &[]),
    Act::Open(Setting::Defaults),
    Act::HasFiles("000004.log:0 000006.ldb:177 CURRENT:16 LOCK:0 MANIFEST-000001:81 "),
    Act::Holds("1: 1a"),
];

/// Batches that don't rise from log to log.
const OUT_OF_ORDER: &[Act] = &[
    Act::Open(Setting::Defaults),
    Act::Log("000003.log", &[B]),
    Act::Log("000004.log", &[A]),
    Act::Fails(Setting::Defaults, StatusCode::Corruption),
];

/// A manifest that is damaged from its first byte on, and one that is empty.
const DAMAGED_MANIFESTS: &[Act] = &[
    Act::Put(Setting::Defaults, &[("a", "1")]),
    Act::Cut("MANIFEST-000001", 40),
    Act::IsDamaged,
    Act::Cut("MANIFEST-000001", 0),
    Act::IsDamaged,
];

const REFUSALS: &[(&str, &[Act])] = &[
    ("unwanted", UNWANTED),
    ("missing", MISSING),
    ("without a table", WITHOUT_A_TABLE),
    ("misnamed logs", MISNAMED_LOGS),
    ("after a bad end", AFTER_A_BAD_END),
    ("out of order", OUT_OF_ORDER),
    ("damaged manifests", DAMAGED_MANIFESTS),
];

#[test]
fn refusals(rt: HostRuntime) -> Result<()> {
    play_each(&rt, rt.alloc(), REFUSALS)
}

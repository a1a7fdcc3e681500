//! Whole repairs: the entries that a repaired store has, beside plain lists of those that were put
//! into its folder.
use super::lists::pair_word;
use super::logs::Record::{Batch, Other};
use super::logs::{Log, put_logs};
use super::written::{read_into, small};
use leveldb_base::cmp::DefaultCmp;
use leveldb_base::error::{Result, StatusCode};
use leveldb_disks::mem_env::RecordEnv;
use leveldb_env::env::Env;
use leveldb_repair::repair_store::repair_store;
use leveldb_version_set::version_set::VersionSet;
use std::alloc::Global;
use support::{failed_with, files_on, put_file};

/// Two logs with entries that both have, and one of which nothing is found.
const LOGS: &[Log] = &[
    ("000003.log", &[Batch(1, "ab", ""), Batch(3, "", "a")]),
    ("000005.log", &[Batch(3, "", "a"), Batch(4, "c", "")]),
    ("000004.log", &[Other(b"none"), Batch(9, "z", "")]),
];

/// What is found of them, with the last number and that of the next file.
const FOUND: &str = "4 10: 3a- 1a=1 2b=1 4c=4";

fn repair(alloc: Global, env: &mut RecordEnv) -> Result<()> {
    repair_store(alloc, env, "db", &small(), &mut None)
}

/// The last sequence number of a repaired store, the number of its next log, and its entries as
/// words, a slash before each table. A table that isn't in level 1 is an exclamation mark.
fn repaired(alloc: Global, env: &mut RecordEnv) -> Result<String> {
    let mut set = VersionSet::new(alloc, "db", &DefaultCmp)?;
    set.recover(env, &small())?;
    let mut text = format!(in alloc; "{} {}:", set.last_seq(), set.log_num())?;
    for (level, file) in set.files() {
        if *level != 1 {
            text.push_str("!")?;
        }
        let mut pairs = Vec::new(alloc);
        read_into(alloc, env, file, &mut pairs)?;
        for (key, value) in &pairs {
            text.push_str(" ")?;
            text.push_str(&pair_word(alloc, key, value)?)?;
        }
    }
    Ok(text)
}

/// The words alone.
fn words(text: &str) -> &str {
    text.split_once(':').map_or(text, |parts| parts.1)
}

#[test]
fn all_entries_are_found_once(rt: HostRuntime) -> Result<()> {
    let alloc = rt.alloc();
    let mut env = RecordEnv::new(alloc);
    put_logs(alloc, &mut env, LOGS)?;
    put_file(alloc, &mut env, "000002.ldb", b"no table")?;
    repair(alloc, &mut env)?;
    let text = repaired(alloc, &mut env)?;
    assert!(rt; text.as_str() == FOUND, "{text}");
    assert!(rt; env.exists("db/MANIFEST-000006")? && env.exists("db/000002.ldb")?);
    // its tables are found beside the logs, and more logs
    env.delete("db/CURRENT")?;
    env.delete("db/MANIFEST-000006")?;
    put_logs(alloc, &mut env, &[("000011.log", &[Batch(5, "a", "c")])])?;
    // the manifest of the first repair names its next log, 16, which isn't there
    for wanted in [
        "6 16: 5a=5 3a- 1a=1 2b=1 6c- 4c=4",
        "6 21: 5a=5 3a- 1a=1 2b=1 6c- 4c=4",
    ] {
        repair(alloc, &mut env)?;
        let text = repaired(alloc, &mut env)?;
        assert!(rt; text.as_str() == wanted, "{text}");
    }
    Ok(())
}

/// Without an entry there is no table.
#[test]
fn a_log_without_entries_is_an_empty_store(rt: HostRuntime) -> Result<()> {
    let alloc = rt.alloc();
    let mut env = RecordEnv::new(alloc);
    put_logs(alloc, &mut env, &[("000007.log", &[])])?;
    repair(alloc, &mut env)?;
    let text = repaired(alloc, &mut env)?;
    assert!(rt; text.as_str() == "0 9:", "{text}");
    Ok(())
}

#[test]
fn what_cannot_be_repaired_stays(rt: HostRuntime) -> Result<()> {
    let alloc = rt.alloc();
    let rows: [(&[Log], StatusCode); 5] = [
        // two values of one entry, and a value and a deletion
        (
            &[
                ("000003.log", &[Batch(1, "ab", "")]),
                ("000005.log", &[Batch(2, "b", ""), Batch(11, "a", "")]),
                ("000006.log", &[Batch(1, "", "a")]),
            ],
            StatusCode::Corruption,
        ),
        // neither a table nor a log
        (
            &[("000003.dbtmp", &[Batch(1, "a", "")])],
            StatusCode::InvalidArgument,
        ),
        // numbers that are used up
        (
            &[("18446744073709551614.log", &[Batch(1, "a", "")])],
            StatusCode::NotSupported,
        ),
        // also where there is nothing to write
        (
            &[("18446744073709551613.log", &[])],
            StatusCode::NotSupported,
        ),
        // no file at all
        (&[], StatusCode::InvalidArgument),
    ];
    for (i, (logs, code)) in rows.iter().enumerate() {
        let mut env = RecordEnv::new(alloc);
        put_logs(alloc, &mut env, logs)?;
        let before = files_on(alloc, &mut env)?;
        assert!(rt; failed_with(repair(alloc, &mut env), *code)?, "row {i}");
        assert!(rt; files_on(alloc, &mut env)? == before, "row {i}");
    }
    Ok(())
}

/// Where numbers are left for a manifest and a log, but not for a table, nothing names the table that
/// was written. A store of no table is made, but none is left for its opening.
#[test]
fn numbers_may_end_on_the_way(rt: HostRuntime) -> Result<()> {
    let alloc = rt.alloc();
    let mut env = RecordEnv::new(alloc);
    put_logs(
        alloc,
        &mut env,
        &[("18446744073709551612.log", &[Batch(1, "a", "")])],
    )?;
    assert!(rt; failed_with(repair(alloc, &mut env), StatusCode::NotSupported)?);
    assert!(rt; env.exists("db/18446744073709551614.ldb")? && !env.exists("db/CURRENT")?);
    let mut env = RecordEnv::new(alloc);
    put_logs(alloc, &mut env, &[("18446744073709551612.log", &[])])?;
    repair(alloc, &mut env)?;
    assert!(rt; env.exists("db/MANIFEST-18446744073709551613")? && env.exists("db/CURRENT")?);
    assert!(rt; failed_with(repaired(alloc, &mut env), StatusCode::NotSupported)?);
    Ok(())
}

/// Where a call fails `CURRENT` is as it was or names the repaired store, and another repair finds
/// the same.
#[test]
fn each_call_may_fail(rt: HostRuntime) -> Result<()> {
    let alloc = rt.alloc();
    for done in [false, true] {
        let mut failures = 0;
        for nth in 1..1000 {
            let mut env = RecordEnv::new(alloc);
            put_logs(alloc, &mut env, LOGS)?;
            env.fail(nth, done);
            let result = repair(alloc, &mut env);
            env.fail(0, false);
            if result.is_ok() {
                break;
            }
            failures += 1;
            if env.exists("db/CURRENT")? {
                let text = repaired(alloc, &mut env)?;
                assert!(rt; text.as_str() == FOUND, "call {nth}: {text}");
            }
            repair(alloc, &mut env)?;
            let text = repaired(alloc, &mut env)?;
            assert!(rt; words(&text) == words(FOUND), "call {nth}: {text}");
        }
        assert!(rt; failures > 30 && failures < 999, "{failures} calls fail");
    }
    Ok(())
}

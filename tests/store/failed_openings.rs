//! What is left of a store's files where its opening fails: each of them, with all its bytes.
use super::stores::{buffered, has_bytes, left_at, opened, reusing};
use leveldb_base::error::Result;
use leveldb_disks::mem_env::{Pick, RecordEnv};
use leveldb_env::env::Env;
use std::alloc::Global;
use std::process::Abort;
use support::{File, damage_file, files_on};

/// A disk with a store of one key, of five tables and a log, all of whose bytes a crash keeps. An
/// opening makes a table of the log and compacts level 0.
fn with_five_tables(alloc: Global) -> Result<RecordEnv> {
    let mut env = RecordEnv::new(alloc);
    let mut engine = opened(alloc, &mut env, buffered(1))?;
    for value in 0..6 {
        engine.put(&mut env, b"a", &[b'1' + value])?;
    }
    engine.abandon(&mut env)?;
    left_at(alloc, &env, env.moment(), true)
}

/// The files of the store with their bytes, but `CURRENT` and temporary ones.
fn files_in(alloc: Global, env: &mut RecordEnv) -> Result<Vec<File>> {
    let mut files = files_on(alloc, env)?;
    files.retain(|(name, _)| name.as_str() != "CURRENT" && !name.as_str().ends_with(".dbtmp"));
    Ok(files)
}

/// Opens this disk where the nth call fails, done or not. Where the opening fails, a crash at each
/// moment of it has lost no byte. Returns whether it failed, or none where fewer calls were made.
fn opened_at(
    rt: &impl Abort,
    alloc: Global,
    env: &mut RecordEnv,
    nth: u64,
    done: bool,
) -> Result<Option<bool>> {
    let files = files_in(alloc, env)?;
    let before = env.moment();
    env.fail(nth, done);
    let engine = opened(alloc, env, reusing(false, true));
    let after = env.moment();
    env.fail(0, false);
    let is_err = engine.is_err();
    if let Ok(engine) = engine {
        let mut engine = engine;
        engine.abandon(env)?;
    } else {
        for moment in before..=after {
            let pick = Pick {
                tails: Vec::new(alloc),
                after: done,
            };
            let mut left = env.disk_at(alloc, moment, &pick)?;
            assert!(rt;
                has_bytes(alloc, &mut left, files.as_slice())?,
                "call {nth} {done} at {moment}"
            );
        }
    }
    if (after - before) / 2 < nth {
        return Ok(None);
    }
    Ok(Some(is_err))
}

/// How many openings fail of the store where one of its files has a changed byte, if one is named,
/// as each call fails once.
fn count_failing(rt: &impl Abort, alloc: Global, changed: Option<(&str, usize)>) -> Result<u64> {
    let mut count = 0;
    for done in [false, true] {
        let mut nth = 1;
        loop {
            let mut env = with_five_tables(alloc)?;
            if let Some((name, at)) = changed {
                damage_file(alloc, &mut env, name, at)?;
            }
            let Some(is_err) = opened_at(rt, alloc, &mut env, nth, done)? else {
                break;
            };
            count += u64::from(is_err);
            nth += 1;
        }
    }
    Ok(count)
}

#[test]
fn a_whole_store(rt: HostRuntime) -> Result<()> {
    let count = count_failing(&rt, rt.alloc(), None)?;
    assert!(rt; count > 12, "{count}");
    Ok(())
}

#[test]
fn a_table_that_is_damaged(rt: HostRuntime) -> Result<()> {
    let count = count_failing(&rt, rt.alloc(), Some(("000007.ldb", 0)))?;
    assert!(rt; count > 12, "{count}");
    Ok(())
}

#[test]
fn a_log_that_is_damaged(rt: HostRuntime) -> Result<()> {
    let count = count_failing(&rt, rt.alloc(), Some(("000012.log", 9)))?;
    assert!(rt; count > 8, "{count}");
    Ok(())
}

/// Its second edit is damaged.
#[test]
fn a_manifest_that_is_damaged(rt: HostRuntime) -> Result<()> {
    let count = count_failing(&rt, rt.alloc(), Some(("MANIFEST-000001", 50)))?;
    assert!(rt; count > 12, "{count}");
    Ok(())
}

/// It names no manifest.
#[test]
fn a_current_that_is_damaged(rt: HostRuntime) -> Result<()> {
    let count = count_failing(&rt, rt.alloc(), Some(("CURRENT", 0)))?;
    assert!(rt; count > 8, "{count}");
    Ok(())
}

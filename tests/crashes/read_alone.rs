//! Disks that are read alone before their store is opened: both show the same map.
use super::crash_disks::{Setting, find_all, options_of};
use super::program::assert_run;
use super::replies::{are_same, look_ups};
use leveldb_base::error::{Result, StatusCode};
use leveldb_disks::mem_env::{MemEnv, RecordEnv};
use leveldb_env::env::Env;
use rusty_leveldb::shell::{Reply, run_read_only};
use std::alloc::Global;
use std::process::Abort;
use std::{io, mem};
use support::{OnlyReads, failed_with};

/// What a store replies to a look-up of each key that is read alone, over a device that is asked
/// for nothing but reads; none where `CURRENT` is missing, of which no store is read.
pub fn find_alone(
    rt: &impl Abort,
    alloc: Global,
    env: &mut RecordEnv,
    setting: Setting,
) -> Result<Option<Vec<Reply>>> {
    let is_there = env.exists("db/CURRENT")?;
    let mut replies = Vec::new(alloc);
    let mut reads = OnlyReads::of(mem::replace(env, RecordEnv::new(alloc)));
    let ended = run_read_only(
        &mut reads,
        "db",
        options_of(setting),
        &look_ups(alloc, setting.keys)?,
        &mut replies,
    );
    assert!(rt; reads.rule.refused == 0);
    *env = reads.env;
    if !is_there {
        assert!(rt; failed_with(ended, StatusCode::InvalidArgument)?);
        return Ok(None);
    }
    ended?;
    Ok(Some(replies))
}

/// Whether the disk that is left at a moment is read alone: each where a sweep tries all moments,
/// else one of four.
pub fn is_read_alone(every: u64, moment: u64) -> bool {
    every == 1 || moment % 4 == 0
}

/// What a store replies to a look-up of each key, which is read alone, and then opened, with the
/// same replies; or which is only opened.
pub fn find_both(
    rt: &impl Abort,
    alloc: Global,
    env: &mut RecordEnv,
    setting: Setting,
    is_alone: bool,
) -> Result<Vec<Reply>> {
    if !is_alone {
        return find_all(alloc, env, setting);
    }
    let alone = find_alone(rt, alloc, env, setting)?;
    let found = find_all(alloc, env, setting)?;
    if let Some(alone) = alone {
        assert!(rt; are_same(&alone, &found));
    }
    Ok(found)
}

/// The run that the gate does.
const WRITES: &[u8] = b"write 1 +61=31 -62\nget 61\nget 62\nsnap\nput 61 32\ngetat 0 61\n\
walk now first next prev\nrelease 0\ngetat 0 61\n";

const REPLIES: &[u8] = b"ok\nvalue 31\nnone\nsnapshot 0\nok\nvalue 31\nat 61 32\ninvalid\n\
invalid\nok\nrefused InvalidArgument\n";

#[test]
fn program_that_only_reads(rt: HostRuntime) -> io::Result<()> {
    let alloc = rt.alloc();
    let mut env = MemEnv::new(alloc);
    assert_run(&rt, &mut env, alloc, &["db"], WRITES, (0, REPLIES, b""))?;
    let alone: &[&str] = &["--read-only", "db"];
    let mut reads = OnlyReads::of(env);
    assert_run(
        &rt,
        &mut reads,
        alloc,
        alone,
        b"get 61\nput 61 33\nwalk now first\n",
        (0, b"value 32\nrefused InvalidArgument\nat 61 32\n", b""),
    )?;
    assert_run(
        &rt,
        &mut reads,
        alloc,
        alone,
        b"get 6\n",
        (2, b"", b"bad command in line 1\n"),
    )?;
    assert_run(
        &rt,
        &mut reads,
        alloc,
        &["--read-only", "other"],
        b"get 61\n",
        (1, b"", b"ldb: InvalidArgument: there is no store\n"),
    )?;
    assert!(rt; reads.rule.refused == 0);
    Ok(())
}

/// The usage, where the arguments are none of its three forms; a single one is a folder, whatever
/// its name is.
#[test]
fn arguments(rt: HostRuntime) -> io::Result<()> {
    let alloc = rt.alloc();
    let mut env = MemEnv::new(alloc);
    let usage = b"usage: ldb [--repair | --read-only] DIR\n".as_slice();
    for words in [
        [].as_slice(),
        ["db", "--read-only"].as_slice(),
        ["--read-onl", "db"].as_slice(),
        ["--read-only", "--read-only", "db"].as_slice(),
        ["db", "--repair"].as_slice(),
        ["--repai", "db"].as_slice(),
        ["--repair", "--read-only", "db"].as_slice(),
    ] {
        assert_run(&rt, &mut env, alloc, words, b"", (2, b"", usage))?;
    }
    let put = b"put 61 31\n".as_slice();
    assert_run(
        &rt,
        &mut env,
        alloc,
        &["--read-only"],
        put,
        (0, b"ok\n", b""),
    )?;
    let get = b"get 61\n".as_slice();
    let alone: &[&str] = &["--read-only", "--read-only"];
    assert_run(&rt, &mut env, alloc, alone, get, (0, b"value 31\n", b""))?;
    Ok(())
}

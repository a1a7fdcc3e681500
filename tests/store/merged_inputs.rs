//! Merging the tables of a version's files: what is left of them, over an environment that reads
//! few bytes at a time, and what is left where a call fails or a crash comes.

use super::merging::{EvenKeys, assert_has, copy_of, entries, slow_merge};
use super::outputs::{FIRST, Put, SmallOptions, pairs_of, path_of, small};
use leveldb_base::cmp::DefaultCmp;
use leveldb_base::error::{Result, StatusCode};
use leveldb_base::key_types::parse_internal_key;
use leveldb_base::types::FileMetaData;
use leveldb_disks::mem_env::{Pick, RecordEnv};
use leveldb_env::compressor::CompressorList;
use leveldb_env::env::Env;
use leveldb_env::filter::BloomPolicy;
use leveldb_store::merge_inputs::merge_inputs;
use leveldb_store::merge_tables::{Cuts, MergePlan, merge_tables};
use leveldb_store::outputs::Outputs;
use leveldb_version::table_cache::{ReadTables, TableCache};
use leveldb_version::version::Version;
use leveldb_version_set::version_set::VersionSet;
use std::alloc::Global;
use std::process::Abort;
use support::{Random, ShortReads, damage_file, failed_with};

/// Tables end past their size alone.
#[derive(Drop)]
struct Never;

impl Cuts for Never {
    ghost stops_before = { ? };

    fn should_stop_before(&mut self, _key: &[u8]) -> bool {
        false
    }
}

/// Tables of two levels, and the entries of all of them.
#[derive(Drop)]
struct Inputs {
    files: Vec<(usize, FileMetaData)>,
    entries: Vec<Put>,
}

/// Writes tables of the entries whose numbers are from one up to another.
fn write_tables<E: Env>(
    alloc: Global,
    env: &mut E,
    versions: &mut VersionSet<E, DefaultCmp>,
    inputs: &mut Inputs,
    level: usize,
    from: u64,
    to: u64,
) -> Result<()> {
    let options = small(if level == 0 { 1 << 20 } else { 100 });
    let mut outputs: Outputs<E, DefaultCmp, BloomPolicy> = Outputs::new(alloc);
    for put in &inputs.entries {
        let sequence = parse_internal_key(put.key.as_slice()).1;
        if from <= sequence && sequence <= to {
            outputs.put(
                env,
                versions,
                "db",
                &options,
                put.key.as_slice(),
                put.value.as_slice(),
            )?;
        }
    }
    for file in outputs.finish(env, &options)? {
        inputs.files.push((level, file))?;
    }
    Ok(())
}

/// Some tables of level 1, and three of level 0 with newer entries.
fn write_inputs<E: Env>(
    alloc: Global,
    env: &mut E,
    versions: &mut VersionSet<E, DefaultCmp>,
    random: &mut Random,
) -> Result<Inputs> {
    let mut all = Vec::new(alloc);
    for entry in &entries(alloc, random, 60)? {
        all.push(copy_of(alloc, entry, false)?)?;
    }
    let mut inputs = Inputs {
        files: Vec::new(alloc),
        entries: all,
    };
    write_tables(alloc, env, versions, &mut inputs, 1, 1, 25)?;
    write_tables(alloc, env, versions, &mut inputs, 0, 26, 35)?;
    write_tables(alloc, env, versions, &mut inputs, 0, 36, 50)?;
    write_tables(alloc, env, versions, &mut inputs, 0, 51, 60)?;
    Ok(inputs)
}

fn merge<E: Env>(
    alloc: Global,
    env: &mut E,
    versions: &mut VersionSet<E, DefaultCmp>,
    options: &SmallOptions,
    smallest: u64,
    files: &[(usize, FileMetaData)],
) -> Result<Vec<FileMetaData>> {
    let version = Version::of_files(alloc, DefaultCmp, files)?;
    let mut cache = TableCache::new(alloc, "db", options)?;
    let mut reading = ReadTables {
        cache: &mut cache,
        cmp: DefaultCmp,
        policy: options.filter_policy,
        compressors: &options.compressor_list,
        below: versions.next_file_num(),
    };
    let mut walk = merge_inputs::<E, DefaultCmp, BloomPolicy, CompressorList>(
        alloc, DefaultCmp, &version,
    )?;
    let plan = MergePlan {
        alloc,
        store: "db",
        options,
        levels: &EvenKeys,
        smallest,
    };
    merge_tables(env, &mut reading, &mut walk, versions, &plan, &mut Never)
}

#[test]
fn tables_are_merged_over_short_reads(rt: HostRuntime) -> Result<()> {
    let alloc = rt.alloc();
    let mut random = Random(31);
    for round in 0..20 {
        let options = small([1, 150, 400, 3000][round % 4]);
        let mut env = ShortReads::new(RecordEnv::new(alloc));
        let mut versions = VersionSet::new(alloc, "db", &DefaultCmp)?;
        let inputs = write_inputs(alloc, &mut env, &mut versions, &mut random)?;
        let smallest = random.below(70);
        let first = versions.next_file_num();
        let files = merge(
            alloc,
            &mut env,
            &mut versions,
            &options,
            smallest,
            inputs.files.as_slice(),
        )?;
        let left = slow_merge(alloc, smallest, inputs.entries.as_slice())?;
        assert_has(
            &rt,
            alloc,
            &mut env,
            &options,
            first,
            files.as_slice(),
            left.as_slice(),
        )?;
    }
    Ok(())
}

/// Whether the inputs are there and whole, and beside them there are tables of new numbers at most.
fn keeps_inputs(alloc: Global, env: &mut RecordEnv, inputs: &Inputs, next: u64) -> Result<bool> {
    let mut count = 0;
    for (_, file) in &inputs.files {
        count += pairs_of(alloc, env, &small(1), file)?.len();
    }
    for name in &env.children(alloc, "db")? {
        let path = format!(in alloc; "db/{name}")?;
        let mut known = false;
        for number in FIRST..next {
            known = known || path.as_str() == path_of(alloc, number)?.as_str();
        }
        if !known {
            return Ok(false);
        }
    }
    Ok(count == inputs.entries.len())
}

/// These inputs merged into small tables, where the smallest held number is 40.
fn merge_small(
    alloc: Global,
    env: &mut RecordEnv,
    versions: &mut VersionSet<RecordEnv, DefaultCmp>,
    inputs: &Inputs,
) -> Result<Vec<FileMetaData>> {
    merge(
        alloc,
        env,
        versions,
        &small(150),
        40,
        inputs.files.as_slice(),
    )
}

/// A crash on either side of this moment leaves the inputs whole, whatever it keeps of what wasn't
/// synced.
fn crash_at(
    rt: &impl Abort,
    alloc: Global,
    env: &RecordEnv,
    inputs: &Inputs,
    next: u64,
    moment: u64,
) -> Result<()> {
    for after in [false, true] {
        for tails in [Vec::new(alloc), env.tails(alloc, moment, after)?] {
            let mut left = env.disk_at(alloc, moment, &Pick { tails, after })?;
            assert!(rt;
                keeps_inputs(alloc, &mut left, inputs, next)?,
                "moment {moment}"
            );
        }
    }
    Ok(())
}

/// Crashes at one of so many moments of a merge.
pub fn crash_in_merge(rt: &impl Abort, alloc: Global, every: u64) -> Result<()> {
    let mut env = RecordEnv::new(alloc);
    let mut versions = VersionSet::new(alloc, "db", &DefaultCmp)?;
    let inputs = write_inputs(alloc, &mut env, &mut versions, &mut Random(6))?;
    let before = env.moment();
    let files = merge_small(alloc, &mut env, &mut versions, &inputs)?;
    assert!(rt; files.len() > 2 && env.moment() > before + 40);
    let next = versions.next_file_num();
    for moment in before..=env.moment() {
        if moment % every == 0 {
            crash_at(rt, alloc, &env, &inputs, next, moment)?;
        }
    }
    Ok(())
}

#[test]
fn crashes_leave_the_inputs(rt: HostRuntime) -> Result<()> {
    crash_in_merge(&rt, rt.alloc(), 11)
}

/// A merge of which this call fails, done or undone, fails so and leaves the inputs whole. Returns
/// whether it makes so many calls.
fn fail_at(rt: &impl Abort, alloc: Global, nth: u64, done: bool) -> Result<bool> {
    let mut env = RecordEnv::new(alloc);
    let mut versions = VersionSet::new(alloc, "db", &DefaultCmp)?;
    let inputs = write_inputs(alloc, &mut env, &mut versions, &mut Random(6))?;
    env.fail(nth, done);
    let merged = merge_small(alloc, &mut env, &mut versions, &inputs);
    if merged.is_ok() {
        return Ok(false);
    }
    assert!(rt;
        failed_with(merged, StatusCode::IOError)?,
        "call {nth} {done}"
    );
    let next = versions.next_file_num();
    assert!(rt;
        keeps_inputs(alloc, &mut env, &inputs, next)?,
        "call {nth} {done}"
    );
    Ok(true)
}

/// One of so many calls of a merge fails once, and then the next of them. Returns how many failures
/// there were.
pub fn fail_in_merge(rt: &impl Abort, alloc: Global, every: u64) -> Result<u64> {
    let mut failed = 0;
    while fail_at(rt, alloc, 1 + failed * every, false)?
        && fail_at(rt, alloc, 1 + failed * every, true)?
    {
        failed += 1;
    }
    Ok(failed)
}

#[test]
fn failures_leave_the_inputs(rt: HostRuntime) -> Result<()> {
    let failed = fail_in_merge(&rt, rt.alloc(), 5)?;
    assert!(rt; failed > 6, "{failed}");
    Ok(())
}

/// A table that is damaged is refused, and so is one that is gone.
#[test]
fn damaged_inputs_are_refused(rt: HostRuntime) -> Result<()> {
    let alloc = rt.alloc();
    for gone in [false, true] {
        let mut env = RecordEnv::new(alloc);
        let mut versions = VersionSet::new(alloc, "db", &DefaultCmp)?;
        let inputs = write_inputs(alloc, &mut env, &mut versions, &mut Random(6))?;
        let name = format!(in alloc; "{:06}.ldb", inputs.files[0].1.num)?;
        if gone {
            env.delete(&format!(in alloc; "db/{name}")?)?;
        } else {
            damage_file(alloc, &mut env, &name, 3)?;
        }
        let merged = merge_small(alloc, &mut env, &mut versions, &inputs);
        assert!(rt;
            failed_with(merged, StatusCode::Corruption)?,
            "gone: {gone}"
        );
    }
    Ok(())
}

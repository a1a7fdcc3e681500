//! Merging into tables: what is left of random entries, beside a slow merge that goes by the
//! definition, and what is left where a call fails.

use super::outputs::{
    FIRST, Put, SmallOptions, changes_only_tables, key_of, new_set, pairs_of, path_of, plain_cuts,
    small, user_of, with_log,
};
use bytes::Bytes;
use leveldb_base::cmp::{DefaultCmp, InternalKeyCmp};
use leveldb_base::error::{Result, StatusCode};
use leveldb_base::key_types::{ValueType, parse_internal_key};
use leveldb_base::types::FileMetaData;
use leveldb_disks::mem_env::RecordEnv;
use leveldb_env::env::Env;
use leveldb_env::filter::BloomPolicy;
use leveldb_iter::in_memory::InMemory;
use leveldb_store::merge_tables::{Cuts, MergePlan, merge_tables};
use leveldb_store::passing::MergeLevels;
use leveldb_version_set::version_set::VersionSet;
use std::alloc::Global;
use std::process::Abort;
use support::{Listed, Random, failed_with};

/// No deeper level has a user key that begins with an even byte, and the inputs' ranges end below
/// those that begin with 100.
#[derive(Drop)]
pub struct EvenKeys;

fn is_even(user: &[u8]) -> bool {
    user.first().is_some_and(|byte| byte % 2 == 0)
}

impl MergeLevels for EvenKeys {
    ghost is_base = { ? };

    ghost is_among = { ? };

    fn is_base_level_for(&self, user: &[u8]) -> bool {
        is_even(user)
    }

    fn is_among_inputs(&self, user: &[u8]) -> bool {
        user < [100].as_slice()
    }
}

/// Tables are told to end before these keys, by their index.
#[derive(Drop)]
struct Told<'a> {
    puts: &'a [Put],
    at: usize,
}

impl Cuts for Told<'_> {
    ghost stops_before = { ? };

    fn should_stop_before(&mut self, key: &[u8]) -> bool {
        let put = &self.puts[self.at];
        self.at += 1;
        put.told && put.key.as_slice() == key
    }
}

type Plan<'a> = MergePlan<'a, DefaultCmp, BloomPolicy, EvenKeys>;

/// Entries of random numbers, each number once, sorted by their internal keys.
pub fn entries(alloc: Global, random: &mut Random, count: u64) -> Result<Vec<Put>> {
    let mut entries = Vec::new(alloc);
    for sequence in 1..=count {
        let user = [random.below(6) as u8, random.below(4) as u8];
        let kind = if random.below(3) == 0 {
            ValueType::TypeDeletion
        } else {
            ValueType::TypeValue
        };
        let mut value = Vec::new(alloc);
        for byte in 0..random.below(30) {
            value.push(byte as u8)?;
        }
        let key = key_of(alloc, &user, sequence, kind)?;
        let at = entries
            .iter()
            .position(|it: &Put| is_before(key.as_slice(), it.key.as_slice()))
            .unwrap_or(entries.len());
        let told = random.below(15) == 0;
        entries.insert(at, Put { key, value, told })?;
    }
    Ok(entries)
}

fn is_before(one: &[u8], other: &[u8]) -> bool {
    let (user, number) = (user_of(one), parse_internal_key(one).1);
    user < user_of(other) || user == user_of(other) && number > parse_internal_key(other).1
}

/// Whether an entry goes, by the definition.
fn goes(smallest: u64, entries: &[Put], entry: &Put) -> bool {
    let (kind, sequence, user) = parse_internal_key(entry.key.as_slice());
    let shadowed = entries.iter().any(|it| {
        let (_, newer, key) = parse_internal_key(it.key.as_slice());
        key == user && newer > sequence && newer <= smallest
    });
    shadowed || kind == ValueType::TypeDeletion && sequence <= smallest && is_even(user)
}

/// A copy of an entry.
pub fn copy_of(alloc: Global, entry: &Put, told: bool) -> Result<Put> {
    let mut key = Vec::new(alloc);
    key.extend_from_slice(entry.key.as_slice())?;
    let mut value = Vec::new(alloc);
    value.extend_from_slice(entry.value.as_slice())?;
    Ok(Put { key, value, told })
}

/// What is left of entries; one is told if it or an entry that went just before it was.
pub fn slow_merge(alloc: Global, smallest: u64, entries: &[Put]) -> Result<Vec<Put>> {
    let mut left = Vec::new(alloc);
    let mut told = false;
    for entry in entries {
        told = told || entry.told;
        if !goes(smallest, entries, entry) {
            left.push(copy_of(alloc, entry, told)?)?;
            told = false;
        }
    }
    Ok(left)
}

fn walk_over(
    alloc: Global,
    entries: &[Put],
) -> Result<InMemory<Listed<InternalKeyCmp<DefaultCmp>>>> {
    let mut pairs = Vec::new(alloc);
    for entry in entries {
        pairs.push((
            Bytes::copy_from_slice(alloc, entry.key.as_slice())?,
            Bytes::copy_from_slice(alloc, entry.value.as_slice())?,
        ))?;
    }
    Ok(InMemory(Listed::new(InternalKeyCmp(DefaultCmp), pairs)))
}

fn merge(
    alloc: Global,
    env: &mut RecordEnv,
    versions: &mut VersionSet<RecordEnv, DefaultCmp>,
    options: &SmallOptions,
    smallest: u64,
    entries: &[Put],
) -> Result<Vec<FileMetaData>> {
    let mut walk = walk_over(alloc, entries)?;
    let plan: Plan<'_> = MergePlan {
        alloc,
        store: "db",
        options,
        levels: &EvenKeys,
        smallest,
    };
    let mut told = Told {
        puts: entries,
        at: 0,
    };
    merge_tables(env, &mut (), &mut walk, versions, &plan, &mut told)
}

/// Asserts that the tables, of numbers from the first on, have these entries, cut as the plain list
/// says.
pub fn assert_has<E: Env>(
    rt: &impl Abort,
    alloc: Global,
    env: &mut E,
    options: &SmallOptions,
    first: u64,
    files: &[FileMetaData],
    left: &[Put],
) -> Result<()> {
    let begins = plain_cuts(alloc, options, left)?;
    assert!(rt; files.len() == begins.len());
    let mut at = 0;
    for (nth, file) in files.iter().enumerate() {
        assert!(rt; file.num == first + nth as u64 && at == begins[nth]);
        assert!(rt; file.smallest.as_slice() == left[at].key.as_slice());
        for (key, value) in &pairs_of(alloc, env, options, file)? {
            assert!(rt; key.as_slice() == left[at].key.as_slice());
            assert!(rt; value.as_slice() == left[at].value.as_slice());
            at += 1;
        }
        assert!(rt; file.largest.as_slice() == left[at - 1].key.as_slice());
    }
    assert!(rt; at == left.len());
    Ok(())
}

/// Asserts that the tables have what the slow merge leaves. Returns how many entries went.
fn compare(
    rt: &impl Abort,
    alloc: Global,
    options: &SmallOptions,
    smallest: u64,
    entries: &[Put],
) -> Result<usize> {
    let mut env = RecordEnv::new(alloc);
    let mut versions = new_set(alloc)?;
    let files = merge(alloc, &mut env, &mut versions, options, smallest, entries)?;
    assert!(rt; env.tails(alloc, env.moment(), false)?.is_empty());
    let left = slow_merge(alloc, smallest, entries)?;
    assert_has(
        rt,
        alloc,
        &mut env,
        options,
        FIRST,
        files.as_slice(),
        left.as_slice(),
    )?;
    Ok(entries.len() - left.len())
}

/// Compares this many merges of entries that look random. Returns how many entries went.
pub fn compare_merges(rt: &impl Abort, alloc: Global, rounds: usize) -> Result<usize> {
    let mut random = Random(21);
    let mut gone = 0;
    for round in 0..rounds {
        let entries = entries(alloc, &mut random, 70)?;
        let options = small([1, 150, 400, 3000][round % 4]);
        let smallest = random.below(80);
        gone += compare(rt, alloc, &options, smallest, entries.as_slice())?;
    }
    Ok(gone)
}

#[test]
fn merges_leave_what_the_slow_merge_leaves(rt: HostRuntime) -> Result<()> {
    let gone = compare_merges(&rt, rt.alloc(), 40)?;
    assert!(rt; gone > 300, "{gone} entries went");
    Ok(())
}

/// Where every entry goes, there is no table, and no number is given.
#[test]
fn nothing_left_is_no_table(rt: HostRuntime) -> Result<()> {
    let alloc = rt.alloc();
    let mut entries = Vec::new(alloc);
    for user in [0u8, 2, 4] {
        entries.push(Put {
            key: key_of(alloc, &[user], 3, ValueType::TypeDeletion)?,
            value: Vec::new(alloc),
            told: true,
        })?;
    }
    let mut env = RecordEnv::new(alloc);
    let mut versions = new_set(alloc)?;
    let files = merge(
        alloc,
        &mut env,
        &mut versions,
        &small(1),
        3,
        entries.as_slice(),
    )?;
    assert!(rt; files.is_empty() && env.moment() == 0);
    assert!(rt; versions.new_file_number()? == FIRST);
    Ok(())
}

/// Whether the nth call's failure is the device's, after which no call is made, and at most tables
/// of given numbers have changed.
fn fails_at(alloc: Global, entries: &[Put], nth: u64, done: bool) -> Result<bool> {
    let mut env = with_log(alloc)?;
    let mut versions = new_set(alloc)?;
    let before = env.moment();
    env.fail(nth, done);
    let merged = merge(alloc, &mut env, &mut versions, &small(150), 30, entries);
    if !failed_with(merged, StatusCode::IOError)? {
        return Ok(false);
    }
    Ok(env.moment() == before + nth + nth && changes_only_tables(alloc, &mut env, &mut versions)?)
}

#[test]
fn each_failure_leaves_tables_without_a_name(rt: HostRuntime) -> Result<()> {
    let alloc = rt.alloc();
    let entries = entries(alloc, &mut Random(4), 50)?;
    let mut env = with_log(alloc)?;
    let before = env.moment();
    let mut versions = new_set(alloc)?;
    merge(
        alloc,
        &mut env,
        &mut versions,
        &small(150),
        30,
        entries.as_slice(),
    )?;
    let calls = (env.moment() - before) / 2;
    assert!(rt; calls > 30);
    for nth in 1..=calls {
        for done in [false, true] {
            assert!(rt;
                fails_at(alloc, entries.as_slice(), nth, done)?,
                "call {nth} {done}"
            );
        }
    }
    Ok(())
}

/// Whether keys that are out of place are refused.
fn refuses(alloc: Global, keys: &[&[u8]]) -> Result<bool> {
    let mut entries = Vec::new(alloc);
    for key in keys {
        let mut bytes = Vec::new(alloc);
        bytes.extend_from_slice(key)?;
        entries.push(Put {
            key: bytes,
            value: Vec::new(alloc),
            told: false,
        })?;
    }
    let mut env = RecordEnv::new(alloc);
    let mut versions = new_set(alloc)?;
    let merged = merge(
        alloc,
        &mut env,
        &mut versions,
        &small(1),
        9,
        entries.as_slice(),
    );
    failed_with(merged, StatusCode::Corruption)
}

/// A key without a tag, a newer entry after an older one of its key, though the older goes, a key
/// after a greater one, though that goes, and one that is in no input's range.
#[test]
fn keys_out_of_place_are_corruption(rt: HostRuntime) -> Result<()> {
    let alloc = rt.alloc();
    let old = key_of(alloc, &[2], 5, ValueType::TypeDeletion)?;
    let new = key_of(alloc, &[2], 6, ValueType::TypeValue)?;
    let high = key_of(alloc, &[3], 20, ValueType::TypeValue)?;
    assert!(rt; refuses(alloc, &[b"\x02"])?);
    assert!(rt; refuses(alloc, &[old.as_slice(), new.as_slice()])?);
    assert!(rt; refuses(alloc, &[old.as_slice(), old.as_slice()])?);
    assert!(rt; refuses(alloc, &[high.as_slice(), new.as_slice()])?);
    let gone = key_of(alloc, &[4], 9, ValueType::TypeDeletion)?;
    assert!(rt; refuses(alloc, &[gone.as_slice(), high.as_slice()])?);
    let outside = key_of(alloc, &[100], 5, ValueType::TypeValue)?;
    assert!(rt; refuses(alloc, &[old.as_slice(), outside.as_slice()])?);
    Ok(())
}

/// Where no number is at or below the smallest held one, all pairs are in the tables.
#[test]
fn a_merge_of_values_keeps_all(rt: HostRuntime) -> Result<()> {
    let alloc = rt.alloc();
    let entries = entries(alloc, &mut Random(9), 40)?;
    let mut env = RecordEnv::new(alloc);
    let mut versions = new_set(alloc)?;
    let files = merge(
        alloc,
        &mut env,
        &mut versions,
        &small(1 << 20),
        0,
        entries.as_slice(),
    )?;
    assert!(rt; !files.is_empty());
    assert!(rt; env.exists(&path_of(alloc, FIRST)?)?);
    let mut count = 0;
    for file in &files {
        count += pairs_of(alloc, &mut env, &small(1), file)?.len();
    }
    assert!(rt; count == entries.len());
    Ok(())
}

//! Which files openings leave, and what they hold.
use super::acts::{Act, Setting, play_each};
use super::stores::{STORE, contents_of, has_files, opened, reopen, reusing, store_of};
use leveldb_base::error::Result;
use leveldb_disks::mem_env::{Pick, RecordEnv};
use leveldb_env::options::Options;
use std::alloc::Global;
use support::file_bytes;

/// The record of a new store's manifest: its comparator, a log number of 0, the next file's number
/// 2 and a last number of 0. The manifest has 7 bytes before it.
const NEW_MANIFEST: &[u8] = b"\x01\x1aleveldb.BytewiseComparator\x02\0\x03\x02\x04\0";

const NEW_STORE: &[Act] = &[
    Act::Open(Setting::Defaults),
    Act::HasFiles("000003.log:0 CURRENT:16 LOCK:0 MANIFEST-000001:41 "),
    Act::EndsWith("CURRENT", b"MANIFEST-000001\n"),
    Act::EndsWith("MANIFEST-000001", NEW_MANIFEST),
    Act::Holds("0:"),
];

/// Where the last log and the manifest are used on, an opening changes no file.
const USED_ON: &[Act] = &[
    Act::Put(Setting::Defaults, &[("a", "1")]),
    Act::Open(Setting::Defaults),
    Act::HasFiles("000003.log:24 CURRENT:16 LOCK:0 MANIFEST-000001:41 "),
    Act::Put(Setting::Defaults, &[("b", "2")]),
    Act::Holds("2: 1a 2b"),
];

/// Where neither is, the new manifest's number is given first, then the table's, then the log's.
const NEITHER_USED_ON: &[Act] = &[
    Act::Put(Setting::Defaults, &[("a", "1")]),
    Act::Open(Setting::Reuses(false, false)),
    Act::HasFiles("000005.ldb:177 000006.log:0 CURRENT:16 LOCK:0 MANIFEST-000004:75 "),
    Act::Holds("1: 1a"),
    Act::Put(Setting::Defaults, &[("b", "2")]),
    Act::Holds("2: 1a 2b"),
];

/// A log that isn't used on becomes a table, and a manifest of `max_file_size` bytes or more is
/// made anew.
const ONE_USED_ON: &[Act] = &[
    Act::Put(Setting::Defaults, &[("a", "1")]),
    Act::Open(Setting::Reuses(false, true)),
    Act::HasFiles("000004.ldb:177 000005.log:0 CURRENT:16 LOCK:0 MANIFEST-000001:81 "),
    Act::Open(Setting::FileSize(81)),
    Act::HasFiles("000004.ldb:177 000005.log:0 CURRENT:16 LOCK:0 MANIFEST-000007:75 "),
];

/// The last log is used on, and all entries of those before it come to tables, one for each.
const SEVERAL_LOGS: &[Act] = &[
    Act::Put(Setting::Defaults, &[("a", "1")]),
    Act::Log("000004.log", &[(2, "b"), (3, "a")]),
    Act::Log("000006.log", &[(5, "c")]),
    Act::Put(Setting::Defaults, &[("d", "4")]),
    Act::HasFiles(
        "000006.log:48 000007.ldb:177 000008.ldb:190 CURRENT:16 LOCK:0 MANIFEST-000001:106 ",
    ),
    Act::Holds("6: 1a 3a 2b 5c 6d"),
];

/// A log that ends badly isn't used on.
const TORN_LOG: &[Act] = &[
    Act::Put(Setting::Defaults, &[("a", "1"), ("b", "2")]),
    Act::Cut("000003.log", 47),
    Act::Open(Setting::Defaults),
    Act::HasFiles("000004.ldb:177 000005.log:0 CURRENT:16 LOCK:0 MANIFEST-000001:81 "),
    Act::Holds("1: 1a"),
];

/// A log that fills a memtable goes to tables.
const SMALL_MEMTABLE: &[Act] = &[
    Act::Put(Setting::Defaults, &[("a", "1"), ("b", "2"), ("c", "3")]),
    Act::Open(Setting::Buffer(250)),
    Act::HasFiles(
        "000004.ldb:190 000005.ldb:177 000006.log:0 CURRENT:16 LOCK:0 MANIFEST-000001:106 ",
    ),
    Act::Holds("3: 1a 2b 3c"),
];

/// What a crash without tails leaves of a store that was opened, and not synced before.
fn crash_after_opening(alloc: Global, reuses: bool) -> Result<String> {
    let mut env = store_of(alloc, &[("a", "1"), ("b", "2")])?;
    reopen(alloc, &mut env, reusing(reuses, reuses))?;
    let pick = Pick {
        tails: Vec::new(alloc),
        after: false,
    };
    contents_of(alloc, &mut env.crashed(alloc, &pick)?)
}

/// All that an opening has found is durable.
#[test]
fn found_is_durable(rt: HostRuntime) -> Result<()> {
    assert!(rt; crash_after_opening(rt.alloc(), true)?.as_str() == "2: 1a 2b");
    assert!(rt; crash_after_opening(rt.alloc(), false)?.as_str() == "2: 1a 2b");
    Ok(())
}

/// A folder with a manifest and a temporary file alone has no store: one is made, and the temporary
/// file is deleted.
const LEFT_OVER_FILES: &[Act] = &[
    Act::Make("MANIFEST-000001", b"x"),
    Act::Make("000007.dbtmp", b"x"),
    Act::Open(Setting::Defaults),
    Act::HasFiles("000008.log:0 CURRENT:16 LOCK:0 MANIFEST-000001:41 "),
];

/// A name that is of no file of a store stays, and its digits are no number.
const OTHER_NAMES: &[Act] = &[
    Act::Make("+92.ldb", b"x"),
    Act::Make("000090.txt", b"x"),
    Act::Make("LOG.old", b"x"),
    Act::Make("x000091.log", b"x"),
    Act::Open(Setting::Defaults),
    Act::HasFiles(
        "+92.ldb:1 000003.log:0 000090.txt:1 CURRENT:16 LOCK:0 LOG.old:1 MANIFEST-000001:41 x000091.log:1 ",
    ),
    Act::Put(Setting::Reuses(false, true), &[("a", "1")]),
    Act::Holds("1: 1a"),
];

const OPENINGS: &[(&str, &[Act])] = &[
    ("new store", NEW_STORE),
    ("used on", USED_ON),
    ("neither used on", NEITHER_USED_ON),
    ("one used on", ONE_USED_ON),
    ("several logs", SEVERAL_LOGS),
    ("torn log", TORN_LOG),
    ("small memtable", SMALL_MEMTABLE),
    ("left over files", LEFT_OVER_FILES),
    ("other names", OTHER_NAMES),
];

#[test]
fn openings(rt: HostRuntime) -> Result<()> {
    assert!(rt; NEW_MANIFEST.len() == 34);
    play_each(&rt, rt.alloc(), OPENINGS)
}

/// The value of k, after these bytes.
fn append_value(alloc: Global, env: &mut RecordEnv, found: &mut Vec<u8>) -> Result<()> {
    let mut engine = opened(alloc, env, Options::default())?;
    if let Some(value) = engine.get(env, b"k")? {
        found.extend_from_slice(value.as_slice())?;
    }
    Ok(())
}

/// What `CURRENT` names after a crash without tails at this moment, and then the value of k.
fn crash_in_opening(alloc: Global, env: &RecordEnv, moment: u64) -> Result<Vec<u8>> {
    let pick = Pick {
        tails: Vec::new(alloc),
        after: false,
    };
    let mut left = env.disk_at(alloc, moment, &pick)?;
    let mut found = file_bytes(alloc, &mut left, "CURRENT")?;
    append_value(alloc, &mut left, &mut found)?;
    Ok(found)
}

/// At how many moments a crash leaves the first manifest in use, the fourth, or anything else.
fn count_crashes(alloc: Global, env: &RecordEnv, from: u64) -> Result<(u64, u64, u64)> {
    let (mut first, mut fourth, mut others) = (0_u64, 0_u64, 0_u64);
    for moment in from..=env.moment() {
        match crash_in_opening(alloc, env, moment)?.as_slice() {
            b"MANIFEST-000001\n1" => first = first.saturating_add(1),
            b"MANIFEST-000004\n1" => fourth = fourth.saturating_add(1),
            _ => others = others.saturating_add(1),
        }
    }
    Ok((first, fourth, others))
}

/// Puts 1 for k in a store that is closed then.
fn put_and_close(alloc: Global, env: &mut RecordEnv) -> Result<()> {
    let mut engine = opened(alloc, env, Options::default())?;
    engine.put(env, b"k", b"1")?;
    engine.close(env)
}

/// A device with a store that was closed, whose key k has the value 1.
fn closed_store(alloc: Global) -> Result<RecordEnv> {
    let mut env = RecordEnv::new(alloc);
    put_and_close(alloc, &mut env)?;
    Ok(env)
}

/// A crash before the rename finds the old manifest, and one after it the new one.
#[test]
fn crashes_around_a_new_manifest(rt: HostRuntime) -> Result<()> {
    let mut env = closed_store(rt.alloc())?;
    let from = env.moment();
    reopen(rt.alloc(), &mut env, reusing(true, false))?;
    let wanted = "000003.log:24 CURRENT:16 LOCK:0 MANIFEST-000004:50 ";
    assert!(rt; has_files(rt.alloc(), &mut env, wanted)?);
    let (first, fourth, others) = count_crashes(rt.alloc(), &env, from)?;
    assert!(rt; first > 10 && fourth > 5 && others == 0);
    Ok(())
}

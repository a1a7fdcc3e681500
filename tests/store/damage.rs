//! Openings of files whose bytes were changed: which lines the sink gets, and which files stay.
use super::stores::{
    DefaultOptions, STORE, buffered, has_bytes, has_files, map_of, opened, put_all, reopen, reusing,
};
use leveldb_base::crc::{crc32, mask_crc};
use leveldb_base::error::Result;
use leveldb_disks::mem_env::RecordEnv;
use leveldb_env::env::Env;
use leveldb_env::options::Options;
use leveldb_mem::log::{BLOCK_SIZE, LogWriter};
use leveldb_store::damage::{LeftOut, left_out};
use rusty_leveldb::repair;
use std::alloc::Global;
use std::process::Abort;
use support::{Lines, change_byte, damage_file, file_bytes, files_on, lose_manifest, put_file};

/// How many lines an opening with these options gives, and how many of them are this one.
fn opened_with_lines(
    alloc: Global,
    env: &mut RecordEnv,
    mut options: DefaultOptions,
    line: &'static str,
) -> Result<(usize, usize)> {
    let lines = Lines::new(alloc)?;
    options.log = Some(lines.log(alloc, line)?);
    reopen(alloc, env, options)?;
    Ok(lines.counts())
}

/// Whether the store has all these files.
fn are_there(alloc: Global, env: &mut RecordEnv, names: &[&str]) -> Result<bool> {
    for name in names {
        let path = format!(in alloc; "{STORE}/{name}")?;
        if !env.exists(&path)? {
            return Ok(false);
        }
    }
    Ok(true)
}

const KEYS: &[(&str, &str)] = &[("a", "1"), ("b", "2"), ("c", "3")];

/// Three puts, of which each but the last is in a table that an edit of the manifest names.
fn with_two_tables(alloc: Global) -> Result<RecordEnv> {
    let mut env = RecordEnv::new(alloc);
    put_all(alloc, &mut env, buffered(1), KEYS)?;
    Ok(env)
}

const TABLES: &[&str] = &["000005.ldb", "000007.ldb"];

const IN_MANIFEST: &str =
    "db/MANIFEST-000001: 80 bytes from byte 41 on are left out, whole records among them\n";

const SET_ASIDE: &str = "MANIFEST-000001.damaged";

/// One byte of a manifest's second record is changed. What it names stays while the store is open,
/// and the manifest is set aside with its bytes: the next opening reads it no more.
#[test]
fn a_manifest_with_a_changed_byte(rt: HostRuntime) -> Result<()> {
    let alloc = rt.alloc();
    let mut env = with_two_tables(alloc)?;
    let before =
        "000005.ldb:177 000006.log:24 000007.ldb:177 CURRENT:16 LOCK:0 MANIFEST-000001:121 ";
    assert!(rt; has_files(alloc, &mut env, before)?);
    damage_file(alloc, &mut env, "MANIFEST-000001", 53)?;
    let bytes = file_bytes(alloc, &mut env, "MANIFEST-000001")?;
    let lines = opened_with_lines(alloc, &mut env, Options::default(), IN_MANIFEST)?;
    assert!(rt; lines == (1, 1));
    assert!(rt; are_there(alloc, &mut env, TABLES)?);
    assert!(rt; are_there(alloc, &mut env, &[SET_ASIDE, "000006.log"])?);
    assert!(rt; !env.exists("db/MANIFEST-000001")?);
    for _ in 0..2 {
        let lines = opened_with_lines(alloc, &mut env, Options::default(), IN_MANIFEST)?;
        assert!(rt; lines == (0, 0));
        assert!(rt; !env.exists("db/000005.ldb")? && !env.exists("db/000007.ldb")?);
    }
    assert!(rt; file_bytes(alloc, &mut env, SET_ASIDE)?.as_slice() == bytes.as_slice());
    Ok(())
}

/// The same where new manifests are made at each opening.
#[test]
fn new_manifests_after_one_with_a_changed_byte(rt: HostRuntime) -> Result<()> {
    let alloc = rt.alloc();
    let mut env = with_two_tables(alloc)?;
    damage_file(alloc, &mut env, "MANIFEST-000001", 53)?;
    let lines = opened_with_lines(alloc, &mut env, reusing(false, false), IN_MANIFEST)?;
    assert!(rt; lines == (1, 1));
    assert!(rt; are_there(alloc, &mut env, TABLES)?);
    let lines = opened_with_lines(alloc, &mut env, reusing(false, false), IN_MANIFEST)?;
    assert!(rt; lines == (0, 0));
    assert!(rt; env.exists("db/MANIFEST-000001.damaged")?);
    Ok(())
}

/// A file that was set aside before keeps its name and its bytes. Then the damaged one stays where
/// it is, and each opening finds it.
#[test]
fn a_name_that_is_taken(rt: HostRuntime) -> Result<()> {
    let alloc = rt.alloc();
    let mut env = with_two_tables(alloc)?;
    damage_file(alloc, &mut env, "MANIFEST-000001", 53)?;
    put_file(alloc, &mut env, SET_ASIDE, b"another")?;
    let bytes = file_bytes(alloc, &mut env, "MANIFEST-000001")?;
    for _ in 0..3 {
        // The other line says that it isn't set aside.
        let lines = opened_with_lines(alloc, &mut env, Options::default(), IN_MANIFEST)?;
        assert!(rt; lines == (2, 1), "{lines:?}");
        assert!(rt; are_there(alloc, &mut env, TABLES)?);
        assert!(rt; file_bytes(alloc, &mut env, SET_ASIDE)?.as_slice() == b"another".as_slice());
        let now = file_bytes(alloc, &mut env, "MANIFEST-000001")?;
        assert!(rt; now.as_slice() == bytes.as_slice());
    }
    env.delete("db/MANIFEST-000001.damaged")?;
    let lines = opened_with_lines(alloc, &mut env, Options::default(), IN_MANIFEST)?;
    assert!(rt; lines == (1, 1));
    assert!(rt; !env.exists("db/MANIFEST-000001")?);
    assert!(rt; file_bytes(alloc, &mut env, SET_ASIDE)?.as_slice() == bytes.as_slice());
    Ok(())
}

/// Of two damaged files one has its other name taken, whichever comes first in the folder: the
/// other one is set aside nonetheless.
#[test]
fn one_name_of_two_that_is_taken(rt: HostRuntime) -> Result<()> {
    let alloc = rt.alloc();
    for (taken, other) in [
        ("000006.log", "MANIFEST-000001"),
        ("MANIFEST-000001", "000006.log"),
    ] {
        let mut env = with_two_tables(alloc)?;
        put_all(
            alloc,
            &mut env,
            Options::default(),
            &[("d", "4"), ("e", "5")],
        )?;
        damage_file(alloc, &mut env, "000006.log", 30)?;
        damage_file(alloc, &mut env, "MANIFEST-000001", 53)?;
        let aside = format!(in alloc; "{taken}.damaged")?;
        put_file(alloc, &mut env, &aside, b"another")?;
        let left = file_bytes(alloc, &mut env, taken)?;
        let moved = file_bytes(alloc, &mut env, other)?;
        reopen(alloc, &mut env, Options::default())?;
        let now = file_bytes(alloc, &mut env, taken)?;
        assert!(rt; now.as_slice() == left.as_slice(), "{taken}");
        assert!(rt;
            file_bytes(alloc, &mut env, &aside)?.as_slice() == b"another".as_slice(),
            "{taken}"
        );
        let other_aside = format!(in alloc; "{other}.damaged")?;
        let now = file_bytes(alloc, &mut env, &other_aside)?;
        assert!(rt; now.as_slice() == moved.as_slice(), "{other}");
        assert!(rt; !are_there(alloc, &mut env, &[other])?, "{other}");
    }
    Ok(())
}

/// Twenty runs after one log with changed bytes leave no more files than the second one did, and
/// the log has its bytes still, under its other name. A repair passes it over.
#[test]
fn runs_after_a_log_with_a_changed_byte(rt: HostRuntime) -> Result<()> {
    let alloc = rt.alloc();
    let mut env = RecordEnv::new(alloc);
    put_all(alloc, &mut env, Options::default(), KEYS)?;
    damage_file(alloc, &mut env, "000003.log", 30)?;
    let bytes = file_bytes(alloc, &mut env, "000003.log")?;
    let mut counts = Vec::new(alloc);
    for round in 0..20 {
        let mut engine = opened(alloc, &mut env, buffered(1))?;
        engine.put(&mut env, b"d", &[round])?;
        engine.put(&mut env, b"d", &[round])?;
        engine.close(&mut env)?;
        counts.push(env.children(alloc, STORE)?.len())?;
    }
    let most = counts.iter().skip(1).max().copied().unwrap_or(0);
    assert!(rt; most <= 10, "{:?}", counts.as_slice());
    let aside = "000003.log.damaged";
    assert!(rt; file_bytes(alloc, &mut env, aside)?.as_slice() == bytes.as_slice());
    assert!(rt; !env.exists("db/000003.log")?);
    let map = map_of(alloc, &mut env)?;
    lose_manifest(&mut env)?;
    repair(alloc, STORE, &mut env, Options::default())?;
    assert!(rt; map_of(alloc, &mut env)?.as_str() == map.as_str(), "{map}");
    assert!(rt; file_bytes(alloc, &mut env, aside)?.as_slice() == bytes.as_slice());
    Ok(())
}

/// The same where the store is written then: each table that a write makes would have the obsolete
/// files deleted.
#[test]
fn writes_after_a_manifest_with_a_changed_byte(rt: HostRuntime) -> Result<()> {
    let alloc = rt.alloc();
    let mut env = with_two_tables(alloc)?;
    damage_file(alloc, &mut env, "MANIFEST-000001", 53)?;
    let mut engine = opened(alloc, &mut env, buffered(1))?;
    engine.put(&mut env, b"d", b"4")?;
    engine.put(&mut env, b"e", b"5")?;
    engine.abandon(&mut env)?;
    assert!(rt; are_there(alloc, &mut env, TABLES)?);
    assert!(rt; are_there(alloc, &mut env, &[SET_ASIDE])?);
    Ok(())
}

/// So it is where the store is compacted: what was there at the opening stays in the folder with
/// its bytes, and the tables that compactions took which came later don't.
#[test]
fn compactions_after_a_manifest_with_a_changed_byte(rt: HostRuntime) -> Result<()> {
    let alloc = rt.alloc();
    let mut env = with_two_tables(alloc)?;
    damage_file(alloc, &mut env, "MANIFEST-000001", 53)?;
    let mut engine = opened(alloc, &mut env, Options::default())?;
    let files = files_on(alloc, &mut env)?;
    let mut counts = Vec::new(alloc);
    for round in 0..20 {
        engine.put(&mut env, b"d", &[round])?;
        engine.compact_range(&mut env, b"", b"")?;
        assert!(rt;
            has_bytes(alloc, &mut env, files.as_slice())?,
            "round {round}"
        );
        counts.push(env.children(alloc, STORE)?.len())?;
    }
    // A call compacts a level deeper than the one before it, down to the last one: so there are one
    // or two live tables, and a round leaves one file more than the first one did, at most.
    let least = counts.first().copied().unwrap_or(0);
    assert!(rt;
        counts
            .iter()
            .all(|count| *count == least || *count == least + 1),
        "{:?}",
        counts.as_slice()
    );
    engine.abandon(&mut env)?;
    assert!(rt; are_there(alloc, &mut env, TABLES)?);
    assert!(rt; are_there(alloc, &mut env, &[SET_ASIDE])?);
    Ok(())
}

/// Whichever byte of a manifest before its last record is changed, an opening fails or keeps all
/// tables: no edit is lost in silence. If it is one of the last record, that one alone is lost, as
/// by a crash, with its table.
#[test]
fn each_byte_of_a_manifest(rt: HostRuntime) -> Result<()> {
    let alloc = rt.alloc();
    let mut tried: usize = 0;
    for at in 0..121 {
        let mut env = with_two_tables(alloc)?;
        damage_file(alloc, &mut env, "MANIFEST-000001", at)?;
        // The length of the last record: with it the bytes end in a record that is cut short.
        if at == 85 || at == 86 {
            continue;
        }
        let opens = reopen(alloc, &mut env, Options::default()).is_ok();
        if opens {
            tried = tried.saturating_add(1);
        }
        assert!(rt; are_there(alloc, &mut env, &["000005.ldb"])?, "byte {at}");
        let lost = opens && at >= 81;
        assert!(rt; env.exists("db/000007.ldb")? != lost, "byte {at}");
    }
    assert!(rt; tried > 70, "{tried} openings");
    Ok(())
}

const IN_LOG: &str =
    "db/000003.log: 48 bytes from byte 24 on are left out, whole records among them\n";

/// One byte of a log's second record is changed: the log is set aside.
#[test]
fn a_log_with_a_changed_byte(rt: HostRuntime) -> Result<()> {
    let alloc = rt.alloc();
    let mut env = RecordEnv::new(alloc);
    put_all(alloc, &mut env, Options::default(), KEYS)?;
    damage_file(alloc, &mut env, "000003.log", 30)?;
    let lines = opened_with_lines(alloc, &mut env, Options::default(), IN_LOG)?;
    assert!(rt; lines == (1, 1));
    let lines = opened_with_lines(alloc, &mut env, Options::default(), IN_LOG)?;
    assert!(rt; lines == (0, 0));
    assert!(rt; env.exists("db/000003.log.damaged")? && !env.exists("db/000003.log")?);
    Ok(())
}

const LAST_IN_LOG: &str =
    "db/000003.log: 24 bytes from byte 48 on are left out, no whole record among them\n";

/// One byte of a log's last record is changed, and nothing whole comes after it: that is told, but
/// a crash may leave this of bytes that weren't synced, and no file stays for it.
#[test]
fn a_log_with_a_changed_last_record(rt: HostRuntime) -> Result<()> {
    let alloc = rt.alloc();
    let mut env = RecordEnv::new(alloc);
    put_all(alloc, &mut env, Options::default(), KEYS)?;
    damage_file(alloc, &mut env, "000003.log", 60)?;
    let lines = opened_with_lines(alloc, &mut env, Options::default(), LAST_IN_LOG)?;
    assert!(rt; lines == (1, 1));
    assert!(rt; !env.exists("db/000003.log")?);
    Ok(())
}

/// A log that is torn, as a crash leaves it, is deleted once its records are in a table, and
/// nothing is told.
fn open_torn(rt: &impl Abort, alloc: Global, kept: usize, zeros: usize) -> Result<()> {
    let mut env = RecordEnv::new(alloc);
    put_all(alloc, &mut env, Options::default(), KEYS)?;
    let bytes = file_bytes(alloc, &mut env, "000003.log")?;
    let mut torn = Vec::new(alloc);
    torn.extend_from_slice(bytes.as_slice().get(..kept).unwrap_or_default())?;
    torn.resize(kept.saturating_add(zeros), 0)?;
    put_file(alloc, &mut env, "000003.log", &torn)?;
    let lines = opened_with_lines(alloc, &mut env, Options::default(), "")?;
    assert!(rt; lines == (0, 0));
    assert!(rt; !env.exists("db/000003.log")?);
    Ok(())
}

#[test]
fn torn_logs(rt: HostRuntime) -> Result<()> {
    let alloc = rt.alloc();
    open_torn(&rt, alloc, 50, 0)?;
    open_torn(&rt, alloc, 62, 0)?;
    open_torn(&rt, alloc, 71, 0)?;
    open_torn(&rt, alloc, 48, 5)?;
    open_torn(&rt, alloc, 48, 4000)?;
    Ok(())
}

/// Nothing is told of files that are whole, whether they are used on or not.
#[test]
fn whole_files(rt: HostRuntime) -> Result<()> {
    let alloc = rt.alloc();
    let mut env = RecordEnv::new(alloc);
    put_all(alloc, &mut env, Options::default(), KEYS)?;
    let lines = opened_with_lines(alloc, &mut env, Options::default(), "")?;
    assert!(rt; lines == (0, 0));
    let lines = opened_with_lines(alloc, &mut env, reusing(false, false), "")?;
    assert!(rt; lines == (0, 0));
    assert!(rt; !env.exists("db/000003.log")? && !env.exists("db/MANIFEST-000001")?);
    Ok(())
}

/// An opening that can't read a manifest that was left aside, or set it aside, keeps all files; and
/// whatever fails, the manifest is under one of its names.
#[test]
fn a_manifest_that_cannot_be_read(rt: HostRuntime) -> Result<()> {
    let alloc = rt.alloc();
    let mut kept: usize = 0;
    for nth in 0..60 {
        let mut env = with_two_tables(alloc)?;
        damage_file(alloc, &mut env, "MANIFEST-000001", 53)?;
        env.fail(nth, false);
        if reopen(alloc, &mut env, reusing(false, false)).is_ok() {
            kept = kept.saturating_add(1);
        }
        env.fail(0, false);
        assert!(rt; are_there(alloc, &mut env, TABLES)?, "call {nth}");
        let aside = env.exists("db/MANIFEST-000001.damaged")?;
        assert!(rt; env.exists("db/MANIFEST-000001")? != aside, "call {nth}");
    }
    assert!(rt; kept > 20, "{kept} openings");
    Ok(())
}

/// A log of these lengths of records, whose bytes are those that no fragment's type is.
fn log_of(alloc: Global, lengths: &[usize]) -> Result<Vec<u8>> {
    let mut writer = LogWriter::new(alloc, Vec::new(alloc));
    let mut record = Vec::new(alloc);
    for length in lengths {
        record.clear();
        record.resize(*length, 200)?;
        writer.add_record(&record)?;
    }
    Ok(writer.sink)
}

/// Each prefix of a log is a torn one, or a whole one.
#[test]
fn prefixes_of_logs(rt: HostRuntime) -> Result<()> {
    let alloc = rt.alloc();
    let text = log_of(alloc, &[20, 0x101, 1, BLOCK_SIZE, 7])?;
    let mut size: usize = 0;
    while size <= text.len() {
        let found = left_out(text.as_slice().get(..size).unwrap_or_default());
        assert!(rt; found.is_none(), "{size} bytes");
        // Each size near the blocks' ends, and a few of the others.
        let offset = size % BLOCK_SIZE;
        let step = if offset < 400 || offset > BLOCK_SIZE - 50 {
            1
        } else {
            509
        };
        size = size.saturating_add(step);
    }
    Ok(())
}

/// A whole fragment of the type that a whole record has, and no data.
fn empty_fragment() -> [u8; 7] {
    let [a, b, c, d] = mask_crc(crc32(&[1])).to_le_bytes();
    [a, b, c, d, 0, 0, 1]
}

/// A log is read up to a record of no bytes, which is no batch and which a crash can't leave,
/// whatever comes after it.
#[test]
fn records_of_no_bytes(rt: HostRuntime) -> Result<()> {
    let alloc = rt.alloc();
    for rest in [0, 14] {
        let mut text = log_of(alloc, &[20])?;
        text.extend_from_slice(&empty_fragment())?;
        let after = log_of(alloc, &[7])?;
        text.extend_from_slice(after.as_slice().get(..rest).unwrap_or_default())?;
        let wanted = LeftOut {
            from: 27,
            count: 7 + rest,
            has_records: true,
        };
        assert!(rt; left_out(&text) == Some(wanted), "{rest} bytes after it");
    }
    Ok(())
}

/// What is left out of a log with one changed byte.
fn left_of_changed(text: &mut [u8], at: usize, amount: u8) -> Option<LeftOut> {
    change_byte(text, at, amount);
    let found = left_out(text);
    change_byte(text, at, 0u8.wrapping_sub(amount));
    found
}

/// Where a byte before the last record is changed, whole records are left out, from its own record
/// on.
#[test]
fn changed_bytes_of_logs(rt: HostRuntime) -> Result<()> {
    let alloc = rt.alloc();
    let mut text = log_of(alloc, &[20, 257, 1, 40, 7])?;
    let starts: [usize; 5] = [0, 27, 291, 299, 346];
    for at in 0..text.len() {
        for amount in [1, 128, 255] {
            let found = left_of_changed(text.as_mut_slice(), at, amount);
            let from = starts
                .iter()
                .filter(|start| **start <= at)
                .max()
                .copied()
                .unwrap_or(0);
            if from == 346 {
                assert!(rt;
                    !found.is_some_and(|left| left.has_records),
                    "byte {at} by {amount}"
                );
                continue;
            }
            let wanted = LeftOut {
                from,
                count: text.len() - from,
                has_records: true,
            };
            assert!(rt; found == Some(wanted), "byte {at} by {amount}");
        }
    }
    Ok(())
}

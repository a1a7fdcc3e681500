//! Repairs: what they leave, what is found then, crashes at each of their moments, and calls that fail.
use super::stores::{
    DefaultOptions, STORE, buffered, files_of, has_files, map_of, put_all, put_log, put_log_of,
    reopen, reusing,
};
use leveldb_base::error::{Result, StatusCode};
use leveldb_disks::mem_env::{MemEnv, Pick, RecordEnv};
use leveldb_env::env::Env;
use leveldb_env::infolog::Logger;
use leveldb_env::options::Options;
use rusty_leveldb::db_impl::Engine;
use rusty_leveldb::repair;
use std::alloc::Global;
use std::process::Abort;
use support::{
    Lines, Raised, ShortReads, answered, change_byte, code_of, damage_file, failed_with,
    file_bytes, files_on, is_free, lose_manifest, put_file,
};

/// The pairs of the small store, the first of which is in a table, and the other in a log.
const PAIRS: &[(&str, &str)] = &[("a", "1"), ("b", "2")];

/// What it shows.
const MAP: &str = " a=1 b=2";

/// Its files.
const FILES: &str = "000004.log:24 000005.ldb:177 CURRENT:16 LOCK:0 MANIFEST-000001:81 ";

/// Repairs the store with default options.
pub fn mend<E: Env>(alloc: Global, env: &mut E) -> Result<()> {
    repair(alloc, STORE, env, Options::default())
}

/// The small store on this disk, with its manifest or without.
fn put_small<E: Env>(alloc: Global, env: &mut E, is_lost: bool) -> Result<()> {
    put_all(alloc, env, buffered(1), PAIRS)?;
    if is_lost {
        lose_manifest(env)?;
    }
    Ok(())
}

/// Which files a repair leaves, with which sizes, and what the next opening finds and leaves.
fn play_small<E: Env>(rt: &impl Abort, alloc: Global, env: &mut E) -> Result<()> {
    put_all(alloc, env, buffered(1), PAIRS)?;
    assert!(rt; has_files(alloc, env, FILES)?);
    lose_manifest(env)?;
    let opened = reopen(alloc, env, Options::default());
    assert!(rt; failed_with(opened, StatusCode::Corruption)?);
    mend(alloc, env)?;
    assert!(rt; is_free(env)?);
    let files = files_of(alloc, env)?;
    let wanted =
        "000004.log:24 000005.ldb:177 000007.ldb:190 CURRENT:16 LOCK:0 MANIFEST-000006:68 ";
    assert!(rt; files.as_str() == wanted, "{files}");
    assert!(rt; file_bytes(alloc, env, "CURRENT")?.as_slice() == b"MANIFEST-000006\n".as_slice());
    let map = map_of(alloc, env)?;
    assert!(rt; map.as_str() == MAP, "{map}");
    let files = files_of(alloc, env)?;
    assert!(rt;
        files
            .as_str()
            .starts_with("000007.ldb:190 000010.log:0 CURRENT:16 LOCK:0 "),
        "{files}"
    );
    Ok(())
}

#[test]
fn a_lost_manifest(rt: HostRuntime) -> Result<()> {
    let alloc = rt.alloc();
    play_small(&rt, alloc, &mut MemEnv::new(alloc))?;
    play_small(&rt, alloc, &mut RecordEnv::new(alloc))?;
    play_small(&rt, alloc, &mut ShortReads::new(MemEnv::new(alloc)))
}

/// The manifest's one record: comparator, log number, no previous log, next file, last number, and the table.
#[test]
fn the_manifest(rt: HostRuntime) -> Result<()> {
    let alloc = rt.alloc();
    let mut env = MemEnv::new(alloc);
    put_small(alloc, &mut env, true)?;
    mend(alloc, &mut env)?;
    let bytes = file_bytes(alloc, &mut env, "MANIFEST-000006")?;
    let wanted = b"\x3d\0\x01\x01\x1aleveldb.BytewiseComparator\x02\x08\x09\0\x03\x09\x04\x02\
\x07\x01\x07\xbe\x01\x09a\x01\x01\0\0\0\0\0\0\x09b\x01\x02\0\0\0\0\0\0";
    let mut read = bytes.as_slice().get(4..).unwrap_or_default();
    let mut found = Vec::new(alloc);
    found.extend_from_slice(read)?;
    // The fields may come in any order: as many bytes, and each field is there.
    assert!(rt; found.len() == wanted.len(), "{}", found.len());
    for field in [
        b"\x01\x1aleveldb.BytewiseComparator".as_slice(),
        b"\x02\x08".as_slice(),
        b"\x09\0".as_slice(),
        b"\x03\x09".as_slice(),
        b"\x04\x02".as_slice(),
        b"\x07\x01\x07\xbe\x01\x09a\x01\x01\0\0\0\0\0\0\x09b\x01\x02\0\0\0\0\0\0".as_slice(),
    ] {
        let mut is_there = false;
        while !read.is_empty() {
            if read.starts_with(field) {
                is_there = true;
                break;
            }
            read = read.get(1..).unwrap_or_default();
        }
        read = found.as_slice();
        assert!(rt; is_there, "{field:?}");
    }
    Ok(())
}

/// A second repair, with an opening in between and without one, finds the same.
#[test]
fn repaired_twice(rt: HostRuntime) -> Result<()> {
    let alloc = rt.alloc();
    for opens in [false, true] {
        let mut env = MemEnv::new(alloc);
        put_small(alloc, &mut env, true)?;
        mend(alloc, &mut env)?;
        if opens {
            assert!(rt; map_of(alloc, &mut env)?.as_str() == MAP);
        }
        mend(alloc, &mut env)?;
        let map = map_of(alloc, &mut env)?;
        assert!(rt; map.as_str() == MAP, "{map}");
    }
    Ok(())
}

/// A store that is whole is repaired, too, and goes on from there.
#[test]
fn a_whole_store(rt: HostRuntime) -> Result<()> {
    let alloc = rt.alloc();
    let mut env = MemEnv::new(alloc);
    put_small(alloc, &mut env, false)?;
    mend(alloc, &mut env)?;
    assert!(rt; env.exists("db/MANIFEST-000001")? && env.exists("db/000004.log")?);
    put_all(alloc, &mut env, buffered(1), &[("c", "3"), ("a", "4")])?;
    let map = map_of(alloc, &mut env)?;
    assert!(rt; map.as_str() == " a=4 b=2 c=3", "{map}");
    assert!(rt; !env.exists("db/MANIFEST-000001")? && !env.exists("db/000004.log")?);
    mend(alloc, &mut env)?;
    let map = map_of(alloc, &mut env)?;
    assert!(rt; map.as_str() == " a=4 b=2 c=3", "{map}");
    Ok(())
}

// ---- what isn't repaired

/// A repair of this disk fails with this code, gives back the lock, and leaves each file as it was.
fn stays(rt: &impl Abort, alloc: Global, env: &mut MemEnv, code: StatusCode) -> Result<()> {
    let before = files_on(alloc, env)?;
    assert!(rt; failed_with(mend(alloc, env), code)?);
    assert!(rt; is_free(env)?);
    assert!(rt; files_on(alloc, env)? == before);
    Ok(())
}

/// Two entries of one key and number, of which one has another value, or is a deletion.
#[test]
fn entries_that_clash(rt: HostRuntime) -> Result<()> {
    let alloc = rt.alloc();
    let mut env = MemEnv::new(alloc);
    put_small(alloc, &mut env, false)?;
    put_log_of(alloc, &mut env, "000006.log", &[(1, "a", "9")])?;
    stays(&rt, alloc, &mut env, StatusCode::Corruption)?;
    assert!(rt;
        names_clash(
            alloc,
            &mut env,
            "db/000005.ldb and db/000006.log have",
            "one of them"
        )?
    );
    lose_manifest(&mut env)?;
    stays(&rt, alloc, &mut env, StatusCode::Corruption)?;
    env.delete("db/000005.ldb")?;
    mend(alloc, &mut env)?;
    assert!(rt; map_of(alloc, &mut env)?.as_str() == " a=9 b=2");
    Ok(())
}

/// Whether the text of a repair's error begins with these files, and says which to set aside.
fn names_clash<E: Env>(alloc: Global, env: &mut E, files: &str, which: &str) -> Result<bool> {
    let wanted = format!(in alloc;
        "Corruption: {files} different pairs of one key: set {which} aside"
    )?;
    let Err(status) = mend(alloc, env) else {
        return Ok(false);
    };
    let text = status.err.as_ref().map_or("", |text| text.as_str());
    Ok(status.code == StatusCode::Corruption && text.starts_with(wanted.as_str()))
}

/// Of many files the two are named that clash, wherever they are among them, and a log that clashes with itself alone.
#[test]
fn the_files_that_clash(rt: HostRuntime) -> Result<()> {
    let alloc = rt.alloc();
    for first in 1..8 {
        for second in first..9 {
            let mut env = MemEnv::new(alloc);
            for number in 1..9 {
                let name = format!(in alloc; "00000{number}.log")?;
                put_log(alloc, &mut env, &name, &[(100 + number, "k")])?;
            }
            for (number, value) in [(first, "1"), (second, "2")] {
                let path = format!(in alloc; "00000{number}.log")?;
                let mut puts = Vec::new(alloc);
                if second == first {
                    puts.push((7, "c", "1"))?;
                }
                puts.push((7, "c", value))?;
                put_log_of(alloc, &mut env, &path, &puts)?;
            }
            let (files, which) = if first == second {
                (format!(in alloc; "db/00000{first}.log has")?, "it")
            } else {
                let both = format!(in alloc; "db/00000{first}.log and db/00000{second}.log have")?;
                (both, "one of them")
            };
            assert!(rt;
                names_clash(alloc, &mut env, &files, which)?,
                "{first} {second}"
            );
            let path = format!(in alloc; "db/00000{second}.log")?;
            env.delete(&path)?;
            mend(alloc, &mut env)?;
        }
    }
    Ok(())
}

/// A store with a table for each of these pairs, in whose manifest the edit of the second one is damaged.
fn put_and_damage(alloc: Global, env: &mut MemEnv, pairs: &[(&str, &str)]) -> Result<()> {
    let mut engine = Engine::open(alloc, STORE, env, DefaultOptions::default())?;
    let mut ends = Vec::new(alloc);
    for (key, value) in pairs {
        engine.put(env, key.as_bytes(), value.as_bytes())?;
        engine.compact_range(env, b"z", b"z")?;
        ends.push(file_bytes(alloc, env, "MANIFEST-000001")?.len())?;
    }
    engine.abandon(env)?;
    let end = ends.get(1).copied().unwrap_or(0);
    damage_file(alloc, env, "MANIFEST-000001", end.saturating_sub(1))
}

/// A store whose manifest lost edits is opened, and gives a number again that is in a table which was left out. With one of the two files set aside it
/// is repaired, and shows what the other has.
#[test]
fn a_damaged_store_that_was_written(rt: HostRuntime) -> Result<()> {
    let alloc = rt.alloc();
    for keeps_old in [false, true] {
        let mut env = MemEnv::new(alloc);
        put_and_damage(alloc, &mut env, &[("a", "1"), ("b", "2"), ("c", "3")])?;
        put_all(alloc, &mut env, DefaultOptions::default(), &[("b", "9")])?;
        let Err(status) = mend(alloc, &mut env) else {
            assert!(rt; false, "it was repaired");
            return Ok(());
        };
        let text = status.err.as_ref().map_or("", |text| text.as_str());
        let lost = if keeps_old { ".log" } else { ".ldb" };
        let mut aside = 0;
        for name in &env.children(alloc, STORE)? {
            if name.as_str().ends_with(lost) && text.contains(name.as_str()) {
                let path = format!(in alloc; "db/{name}")?;
                let free = format!(in alloc; "db/{name}.aside")?;
                env.rename(&path, &free)?;
                aside += 1;
            }
        }
        assert!(rt; aside == 1, "{text}");
        mend(alloc, &mut env)?;
        let map = map_of(alloc, &mut env)?;
        let wanted = if keeps_old {
            " a=1 b=2 c=3"
        } else {
            " a=1 b=9 c=3"
        };
        assert!(rt; map.as_str() == wanted, "{map}");
    }
    Ok(())
}

/// Where neither a table nor a log is there: no folder, an empty store's other files, a name that is none of a store's.
#[test]
fn nothing_to_repair(rt: HostRuntime) -> Result<()> {
    let alloc = rt.alloc();
    let code = StatusCode::InvalidArgument;
    let mut env = MemEnv::new(alloc);
    assert!(rt; failed_with(mend(alloc, &mut env), code)?);
    assert!(rt; has_files(alloc, &mut env, "LOCK:0 ")? && is_free(&mut env)?);
    put_file(alloc, &mut env, "CURRENT", b"MANIFEST-000001\n")?;
    put_file(alloc, &mut env, "MANIFEST-000001", b"")?;
    put_file(alloc, &mut env, "notes.log", b"a")?;
    stays(&rt, alloc, &mut env, code)
}

/// One empty log is enough: no entry is found, and there is no table.
#[test]
fn an_empty_log(rt: HostRuntime) -> Result<()> {
    let alloc = rt.alloc();
    let mut env = MemEnv::new(alloc);
    put_file(alloc, &mut env, "000007.log", b"")?;
    mend(alloc, &mut env)?;
    let wanted = "000007.log:0 CURRENT:16 LOCK:0 MANIFEST-000008:43 ";
    assert!(rt;
        has_files(alloc, &mut env, wanted)?,
        "{}",
        files_of(alloc, &mut env)?
    );
    assert!(rt; map_of(alloc, &mut env)?.is_empty());
    Ok(())
}

/// Names and options that don't fit make no call; whether a store must be there isn't looked at.
#[test]
fn names_and_options(rt: HostRuntime) -> Result<()> {
    let alloc = rt.alloc();
    let code = StatusCode::InvalidArgument;
    let mut env = RecordEnv::new(alloc);
    put_small(alloc, &mut env, true)?;
    let moment = env.moment();
    for name in ["", "/", "db/"] {
        assert!(rt; failed_with(repair(alloc, name, &mut env, Options::default()), code)?);
    }
    let mut options: DefaultOptions = Options::default();
    options.block_size = 0;
    assert!(rt; failed_with(repair(alloc, STORE, &mut env, options), code)?);
    let mut options: DefaultOptions = Options::default();
    options.compressor = 7;
    let repaired = repair(alloc, STORE, &mut env, options);
    assert!(rt; failed_with(repaired, StatusCode::NotSupported)?);
    assert!(rt; env.moment() == moment);
    let mut options: DefaultOptions = Options::default();
    options.error_if_exists = true;
    options.create_if_missing = false;
    repair(alloc, STORE, &mut env, options)?;
    assert!(rt; map_of(alloc, &mut env)?.as_str() == MAP);
    Ok(())
}

/// A store that is open elsewhere stays as it is, and so does its lock.
#[test]
fn a_locked_store(rt: HostRuntime) -> Result<()> {
    let alloc = rt.alloc();
    let mut env = MemEnv::new(alloc);
    put_small(alloc, &mut env, false)?;
    env.lock("db/LOCK")?;
    assert!(rt; failed_with(mend(alloc, &mut env), StatusCode::LockError)?);
    assert!(rt; !is_free(&mut env)? && has_files(alloc, &mut env, FILES)?);
    env.unlock("db/LOCK")?;
    assert!(rt; map_of(alloc, &mut env)?.as_str() == MAP);
    Ok(())
}

// ---- what is left out, and how tables are made

/// Repairs this disk, with lines of which this one is expected. Returns how many there were, and how many were right.
fn mend_with_lines(alloc: Global, env: &mut MemEnv, line: &'static str) -> Result<(usize, usize)> {
    let lines = Lines::new(alloc)?;
    let mut options: DefaultOptions = Options::default();
    let log: Logger = lines.log(alloc, line)?;
    options.log = Some(log);
    repair(alloc, STORE, env, options)?;
    Ok(lines.counts())
}

/// A damaged table is left out, which is told, and stays until the next opening.
#[test]
fn a_damaged_table(rt: HostRuntime) -> Result<()> {
    let alloc = rt.alloc();
    let mut env = MemEnv::new(alloc);
    put_small(alloc, &mut env, false)?;
    damage_file(alloc, &mut env, "000005.ldb", 0)?;
    let line = "db/000005.ldb: 177 bytes are left out, which are no readable table\n";
    assert!(rt; mend_with_lines(alloc, &mut env, line)? == (1, 1));
    assert!(rt; env.exists("db/000005.ldb")?);
    let map = map_of(alloc, &mut env)?;
    assert!(rt; map.as_str() == " b=2", "{map}");
    assert!(rt; !env.exists("db/000005.ldb")?);
    Ok(())
}

/// Of a damaged log what comes before the damage is found, and the rest is told.
#[test]
fn a_damaged_log(rt: HostRuntime) -> Result<()> {
    let alloc = rt.alloc();
    let mut env = MemEnv::new(alloc);
    put_all(
        alloc,
        &mut env,
        Options::default(),
        &[("a", "1"), ("b", "2"), ("c", "3")],
    )?;
    damage_file(alloc, &mut env, "000003.log", 30)?;
    let line = "db/000003.log: 48 bytes from byte 24 on are left out, whole records among them\n";
    assert!(rt; mend_with_lines(alloc, &mut env, line)? == (1, 1));
    let map = map_of(alloc, &mut env)?;
    assert!(rt; map.as_str() == " a=1", "{map}");
    Ok(())
}

/// Files that were set aside have names that are none of a store's: nothing is found of them, they take no number, and they stay as they are.
#[test]
fn files_that_were_set_aside(rt: HostRuntime) -> Result<()> {
    let alloc = rt.alloc();
    let mut env = MemEnv::new(alloc);
    put_small(alloc, &mut env, false)?;
    let table = file_bytes(alloc, &mut env, "000005.ldb")?;
    let manifest = file_bytes(alloc, &mut env, "MANIFEST-000001")?;
    lose_manifest(&mut env)?;
    put_log_of(
        alloc,
        &mut env,
        "000004.log.damaged",
        &[(2, "b", "9"), (3, "z", "9")],
    )?;
    put_file(alloc, &mut env, "000901.ldb.damaged", &table)?;
    put_file(alloc, &mut env, "MANIFEST-000902.damaged", &manifest)?;
    let before = files_on(alloc, &mut env)?;
    mend(alloc, &mut env)?;
    assert!(rt; env.exists("db/000007.ldb")? && env.exists("db/MANIFEST-000006")?);
    let map = map_of(alloc, &mut env)?;
    assert!(rt; map.as_str() == MAP, "{map}");
    let mut kept = 0;
    for (name, bytes) in &before {
        if name.as_str().ends_with(".damaged") {
            assert!(rt;
                file_bytes(alloc, &mut env, name)?.as_slice() == bytes.as_slice(),
                "{name}"
            );
            kept += 1;
        }
    }
    assert!(rt; kept == 3, "{kept}");
    let mut env = MemEnv::new(alloc);
    put_file(alloc, &mut env, "LOCK", b"")?;
    put_file(alloc, &mut env, "000003.log.damaged", &table)?;
    stays(&rt, alloc, &mut env, StatusCode::InvalidArgument)
}

/// Small tables are cut between user keys, and all versions of a key are in one, whatever the options leave out later.
#[test]
fn small_tables(rt: HostRuntime) -> Result<()> {
    let alloc = rt.alloc();
    let mut env = MemEnv::new(alloc);
    let pairs = [("a", "1"), ("c", "2"), ("a", "3"), ("b", "4"), ("a", "5")];
    put_all(alloc, &mut env, Options::default(), &pairs)?;
    lose_manifest(&mut env)?;
    let mut options: DefaultOptions = Options::default();
    options.max_file_size = 1;
    repair(alloc, STORE, &mut env, options)?;
    for name in ["000005.ldb", "000006.ldb", "000007.ldb"] {
        let path = format!(in alloc; "db/{name}")?;
        assert!(rt; env.exists(&path)?, "{name}");
    }
    assert!(rt; !env.exists("db/000008.ldb")? && env.exists("db/MANIFEST-000004")?);
    let map = map_of(alloc, &mut env)?;
    assert!(rt; map.as_str() == " a=5 b=4 c=2", "{map}");
    Ok(())
}

/// A table of another compressor isn't repaired without it, and nothing changes; with it, it is.
#[test]
fn a_compressor_that_is_not_set(rt: HostRuntime) -> Result<()> {
    let alloc = rt.alloc();
    let mut env = MemEnv::new(alloc);
    let mut options = buffered(1);
    options
        .compressor_list
        .set_with_id(alloc, 7, Box::new(alloc, Raised)?)?;
    options.compressor = 7;
    put_all(alloc, &mut env, options, PAIRS)?;
    lose_manifest(&mut env)?;
    stays(&rt, alloc, &mut env, StatusCode::NotSupported)?;
    let mut options: DefaultOptions = Options::default();
    options
        .compressor_list
        .set_with_id(alloc, 7, Box::new(alloc, Raised)?)?;
    repair(alloc, STORE, &mut env, options)?;
    assert!(rt; map_of(alloc, &mut env)?.as_str() == MAP);
    Ok(())
}

// ---- crashes and failures

/// A recording disk with a store whose one live table, with a and b, is lost, and c is in a log; and
/// the table's path.
fn with_lost_table(rt: &impl Abort, alloc: Global) -> Result<(RecordEnv, String)> {
    let mut env = RecordEnv::new(alloc);
    for (key, value) in PAIRS {
        let mut engine = Engine::open(alloc, STORE, &mut env, DefaultOptions::default())?;
        engine.put(&mut env, key.as_bytes(), value.as_bytes())?;
        engine.compact_range(&mut env, b"", b"")?;
        engine.abandon(&mut env)?;
    }
    put_all(alloc, &mut env, reusing(true, true), &[("c", "3")])?;
    let names = env.children(alloc, STORE)?;
    let mut lost = String::new(alloc);
    for name in &names {
        if name.as_str().ends_with(".ldb") {
            assert!(rt; lost.is_empty());
            lost = format!(in alloc; "db/{name}")?;
        }
    }
    env.delete(&lost)?;
    Ok((env, lost))
}

/// The number of a lost table isn't given to another by a repair: the manifest names it.
#[test]
fn the_number_of_a_lost_table(rt: HostRuntime) -> Result<()> {
    let alloc = rt.alloc();
    let (mut env, lost) = with_lost_table(&rt, alloc)?;
    mend(alloc, &mut env)?;
    assert!(rt; !env.exists(&lost)?, "{lost}");
    assert!(rt; map_of(alloc, &mut env)?.as_str() == " c=3");
    Ok(())
}

/// A repair that is cut short over a store whose live table is lost: while `CURRENT` is as it was,
/// an opening fails, and no table of the repair is taken for the lost one.
#[test]
fn crashes_where_a_live_table_was_lost(rt: HostRuntime) -> Result<()> {
    let alloc = rt.alloc();
    let (mut env, _) = with_lost_table(&rt, alloc)?;
    let opened = reopen(alloc, &mut env, Options::default());
    assert!(rt; failed_with(opened, StatusCode::Corruption)?);
    let current = file_bytes(alloc, &mut env, "CURRENT")?;
    let first = env.moment();
    mend(alloc, &mut env)?;
    let mut refused: usize = 0;
    for moment in first..=env.moment() {
        let mut left = left_at(alloc, &env, moment, true, Tails::Whole)?;
        let is_old = file_bytes(alloc, &mut left, "CURRENT")?.as_slice() == current.as_slice();
        match found_or_lost(alloc, &mut left)? {
            Some(map) => assert!(rt; !is_old && map.as_str() == " c=3", "{moment}: {map}"),
            None => {
                assert!(rt; is_old, "{moment}");
                refused += 1;
            }
        }
    }
    assert!(rt; refused > 10, "{refused}");
    Ok(())
}

/// A recording disk with the small store, all of whose bytes a crash keeps.
fn kept_small(alloc: Global, is_lost: bool) -> Result<RecordEnv> {
    let mut env = RecordEnv::new(alloc);
    put_small(alloc, &mut env, is_lost)?;
    let moment = env.moment();
    let tails = env.tails(alloc, moment, true)?;
    env.disk_at(alloc, moment, &Pick { tails, after: true })
}

/// The map that an opening of this disk finds, or none if it is refused as one without `CURRENT`.
fn found_or_lost<E: Env>(alloc: Global, env: &mut E) -> Result<Option<String>> {
    match map_of(alloc, env) {
        Ok(map) => Ok(Some(map)),
        Err(status) if status.code == StatusCode::Corruption => Ok(None),
        Err(status) => Err(status),
    }
}

/// Which bytes that weren't synced a crash leaves: none, all, all but each file's last, or all with each file's last one higher.
#[derive(Clone, Copy, Debug)]
enum Tails {
    Nothing,
    Whole,
    Shorter,
    Raised,
}

/// The disk that a crash at a moment leaves.
fn left_at(
    alloc: Global,
    env: &RecordEnv,
    moment: u64,
    after: bool,
    kind: Tails,
) -> Result<RecordEnv> {
    let mut tails = env.tails(alloc, moment, after)?;
    for (_, bytes) in &mut tails {
        let last = bytes.len().saturating_sub(1);
        match kind {
            Tails::Nothing => bytes.clear(),
            Tails::Whole => {}
            Tails::Shorter => bytes.truncate(last),
            Tails::Raised => change_byte(bytes.as_mut_slice(), last, 1),
        }
    }
    env.disk_at(alloc, moment, &Pick { tails, after })
}

/// A crash at one of so many moments of a repair, whose store had a manifest or not: an opening finds the map, or no `CURRENT` where none was there; and
/// another repair finds the map. Returns how many crashes there were.
fn crash_in_repair(
    rt: &impl Abort,
    alloc: Global,
    is_lost: bool,
    kind: Tails,
    every: u64,
) -> Result<usize> {
    let mut env = kept_small(alloc, is_lost)?;
    mend(alloc, &mut env)?;
    let mut crashes: usize = 0;
    let mut refused: usize = 0;
    for moment in 0..=env.moment() {
        if moment % every > 0 {
            continue;
        }
        for after in [false, true] {
            let mut left = left_at(alloc, &env, moment, after, kind)?;
            match found_or_lost(alloc, &mut left)? {
                Some(map) => assert!(rt; map.as_str() == MAP, "{moment} {after} {kind:?}: {map}"),
                None => {
                    assert!(rt; is_lost, "{moment} {after} {kind:?}");
                    refused += 1;
                }
            }
            let mut left = left_at(alloc, &env, moment, after, kind)?;
            mend(alloc, &mut left)?;
            let map = map_of(alloc, &mut left)?;
            assert!(rt;
                map.as_str() == MAP,
                "{moment} {after} {kind:?}, repaired: {map}"
            );
            crashes += 1;
        }
    }
    assert!(rt; is_lost == (refused > 0) && env.moment() > 40);
    Ok(crashes)
}

/// Such crashes with all kinds of tails.
pub fn crash_in_repairs(
    rt: &impl Abort,
    alloc: Global,
    is_lost: bool,
    every: u64,
) -> Result<usize> {
    let mut crashes = 0;
    for kind in [Tails::Nothing, Tails::Whole, Tails::Shorter, Tails::Raised] {
        crashes += crash_in_repair(rt, alloc, is_lost, kind, every)?;
    }
    Ok(crashes)
}

#[test]
fn crashes_where_the_manifest_was_lost(rt: HostRuntime) -> Result<()> {
    let crashes = crash_in_repairs(&rt, rt.alloc(), true, 5)?;
    assert!(rt; crashes > 60, "{crashes}");
    Ok(())
}

#[test]
fn crashes_where_it_was_there(rt: HostRuntime) -> Result<()> {
    let crashes = crash_in_repairs(&rt, rt.alloc(), false, 7)?;
    assert!(rt; crashes > 40, "{crashes}");
    Ok(())
}

/// A second crash, at one of so many moments of the repair after one that was cut short in its middle. Returns how many there were.
pub fn crash_in_second_repairs(rt: &impl Abort, alloc: Global, every: u64) -> Result<usize> {
    let mut env = kept_small(alloc, true)?;
    mend(alloc, &mut env)?;
    let mut crashes = 0;
    for first in [env.moment() / 2, env.moment() - 6] {
        let mut second = left_at(alloc, &env, first, true, Tails::Whole)?;
        mend(alloc, &mut second)?;
        for moment in 0..=second.moment() {
            if moment % every > 0 {
                continue;
            }
            let mut left = left_at(alloc, &second, moment, false, Tails::Nothing)?;
            mend(alloc, &mut left)?;
            let map = map_of(alloc, &mut left)?;
            assert!(rt; map.as_str() == MAP, "{first} {moment}: {map}");
            crashes += 1;
        }
    }
    Ok(crashes)
}

#[test]
fn crashes_in_a_second_repair(rt: HostRuntime) -> Result<()> {
    let crashes = crash_in_second_repairs(&rt, rt.alloc(), 5)?;
    assert!(rt; crashes > 10, "{crashes}");
    Ok(())
}

/// The nth call of a repair fails, done or not: the repair is refused for it, and its lock is free unless giving it back failed. Then the store is opened,
/// or not, and repaired. Returns whether there was such a call.
fn fail_in_repair(
    rt: &impl Abort,
    alloc: Global,
    is_lost: bool,
    nth: u64,
    done: bool,
    opens: bool,
) -> Result<bool> {
    let mut env = kept_small(alloc, is_lost)?;
    env.fail(nth, done);
    let repaired = answered(mend(alloc, &mut env))?;
    let calls = env.moment() / 2;
    env.fail(0, false);
    if calls < nth {
        repaired?;
        return Ok(false);
    }
    assert!(rt;
        code_of(&repaired) == StatusCode::IOError,
        "call {nth} of {calls}, {done}: {repaired:?}"
    );
    if !is_free(&mut env)? {
        assert!(rt; nth == calls, "call {nth} {done}");
        env.unlock("db/LOCK")?;
    }
    if opens {
        match found_or_lost(alloc, &mut env)? {
            Some(map) => assert!(rt; map.as_str() == MAP, "call {nth} {done}: {map}"),
            None => assert!(rt; is_lost, "call {nth} {done}"),
        }
    }
    mend(alloc, &mut env)?;
    let map = map_of(alloc, &mut env)?;
    assert!(rt; map.as_str() == MAP, "call {nth} {done}, repaired: {map}");
    Ok(true)
}

/// One of so many calls of a repair fails. Returns how many repairs failed so.
pub fn fail_in_repairs(rt: &impl Abort, alloc: Global, every: u64) -> Result<usize> {
    let mut failed = 0;
    for is_lost in [false, true] {
        for done in [false, true] {
            for opens in [false, true] {
                let mut nth = 1;
                while fail_in_repair(rt, alloc, is_lost, nth, done, opens)? {
                    nth += every;
                    failed += 1;
                }
                assert!(rt; nth > 20, "{nth} calls");
            }
        }
    }
    Ok(failed)
}

#[test]
fn some_calls_fail_once(rt: HostRuntime) -> Result<()> {
    let failed = fail_in_repairs(&rt, rt.alloc(), 5)?;
    assert!(rt; failed > 30, "{failed}");
    Ok(())
}

/// A repair that finds no memory is made again. `tools/refuse` refuses each request in turn.
#[test]
fn refused_memory(rt: HostRuntime) -> Result<()> {
    let alloc = rt.alloc();
    for is_lost in [true, false] {
        let mut env = MemEnv::new(alloc);
        put_small(alloc, &mut env, is_lost)?;
        match mend(alloc, &mut env) {
            Ok(()) => {}
            Err(status) => {
                assert!(rt; status.code == StatusCode::OutOfMemory && status.err.is_none());
                assert!(rt; is_free(&mut env)?);
                mend(alloc, &mut env)?;
            }
        }
        assert!(rt; map_of(alloc, &mut env)?.as_str() == MAP);
    }
    Ok(())
}

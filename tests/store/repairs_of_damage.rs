//! Repairs of damaged folders, beside a plain reading of what is found in them.
use super::repairs::mend;
use super::stores::{STORE, batch_of, buffered, map_of, opened, pair_text};
use leveldb_base::cmp::DefaultCmp;
use leveldb_base::error::{Result, Status, StatusCode};
use leveldb_base::types::SequenceNumber;
use leveldb_env::env::Env;
use leveldb_env::mem_env::MemEnv;
use slow_history::{Entry, view_of};
use slow_store::{Found, read_found, read_store};
use std::alloc::Global;
use std::process::Abort;
use support::{
    Change, File, Random, answered, change_byte, disk_with, file_bytes, files_on, put_file,
};

// ---- what is to come of a repair

/// Whether two entries have one key and one number, and differ.
fn have_clash(entries: &[Entry]) -> bool {
    entries.iter().any(|one| {
        entries.iter().any(|other| {
            one.sequence == other.sequence && one.key == other.key && one.value != other.value
        })
    })
}

/// Entries as words, sorted, each once.
fn words_of(alloc: Global, entries: &[Entry]) -> Result<Vec<String>> {
    let mut all = Vec::new(alloc);
    for entry in entries {
        all.push(format!(in alloc; "{entry:?}")?)?;
    }
    all.sort()?;
    let mut words: Vec<String> = Vec::new(alloc);
    for word in all {
        if words
            .last()
            .is_none_or(|last| last.as_str() != word.as_str())
        {
            words.push(word)?;
        }
    }
    Ok(words)
}

fn greatest_of(entries: &[Entry]) -> SequenceNumber {
    entries
        .iter()
        .map(|entry| entry.sequence)
        .max()
        .unwrap_or(0)
}

/// The map that entries show.
fn slow_map(alloc: Global, entries: &[Entry]) -> Result<String> {
    let mut rising = Vec::new(alloc);
    for entry in entries {
        rising.push(entry)?;
    }
    rising.sort_by_key(|entry: &&Entry| entry.sequence)?;
    let mut text = String::new(alloc);
    for (key, value) in view_of(alloc, &DefaultCmp, rising.as_slice(), SequenceNumber::MAX)? {
        text.push_str(&pair_text(alloc, key, value)?)?;
    }
    Ok(text)
}

// ---- the files of a folder

/// Whether each of these files is there with its bytes, but perhaps `CURRENT`.
fn are_there(alloc: Global, env: &mut MemEnv, files: &[File], with_current: bool) -> Result<bool> {
    for (name, bytes) in files {
        if name.as_str() == "CURRENT" && !with_current {
            continue;
        }
        let path = format!(in alloc; "{STORE}/{name}")?;
        if !env.exists(&path)? {
            return Ok(false);
        }
        if file_bytes(alloc, env, name)?.as_slice() != bytes.as_slice() {
            return Ok(false);
        }
    }
    Ok(true)
}

/// Whether nothing has changed, but that `LOCK` may be there.
fn is_as_before(alloc: Global, env: &mut MemEnv, files: &[File]) -> Result<bool> {
    let names = env.children(alloc, STORE)?;
    let others = names.iter().filter(|name| name.as_str() != "LOCK").count();
    let were = files
        .iter()
        .filter(|file| file.0.as_str() != "LOCK")
        .count();
    Ok(others == were && are_there(alloc, env, files, true)?)
}

/// The code with which a repair must fail where this was found, if it must.
fn code_for(found: &Found) -> Option<StatusCode> {
    if found.files == 0 {
        Some(StatusCode::InvalidArgument)
    } else if have_clash(found.entries.as_slice()) {
        Some(StatusCode::Corruption)
    } else {
        None
    }
}

/// Repairs this disk, and compares what comes of it with a plain reading of its files. Returns whether it was repaired.
fn repair_beside_slow(
    rt: &impl Abort,
    alloc: Global,
    env: &mut MemEnv,
    what: &str,
) -> Result<bool> {
    let before = files_on(alloc, env)?;
    let found = read_found(alloc, env, &DefaultCmp, STORE)?;
    let repaired = answered(mend(alloc, env))?;
    if let Some(code) = code_for(&found) {
        let is_right = matches!(&repaired, Err(Status { code: other, .. }) if *other == code);
        assert!(rt; is_right, "{what}: {repaired:?}");
        assert!(rt; is_as_before(alloc, env, &before)?, "{what}");
        return Ok(false);
    }
    assert!(rt; repaired.is_ok(), "{what}: {repaired:?}");
    assert!(rt; are_there(alloc, env, &before, false)?, "{what}");
    let Some(contents) = read_store(alloc, env, &DefaultCmp, STORE)? else {
        assert!(rt; false, "{what}: no store is there");
        return Ok(false);
    };
    let words = words_of(alloc, found.entries.as_slice())?;
    assert!(rt;
        words_of(alloc, contents.entries.as_slice())? == words,
        "{what}"
    );
    assert!(rt; contents.in_tables == words.len(), "{what}");
    assert!(rt;
        contents.last == greatest_of(found.entries.as_slice()),
        "{what}"
    );
    let map = slow_map(alloc, found.entries.as_slice())?;
    let opened = map_of(alloc, env)?;
    assert!(rt;
        opened.as_str() == map.as_str(),
        "{what}: {opened} in place of {map}"
    );
    mend(alloc, env)?;
    let again = map_of(alloc, env)?;
    assert!(rt;
        again.as_str() == map.as_str(),
        "{what}, twice: {again} in place of {map}"
    );
    Ok(true)
}

// ---- each file

/// The files of a store with two tables and a log, with several versions of a key and deletions.
pub fn larger_files(alloc: Global) -> Result<Vec<File>> {
    let mut env = MemEnv::new(alloc);
    let mut engine = opened(alloc, &mut env, buffered(300))?;
    for changes in [
        [("a", Some("1")), ("b", Some("2"))].as_slice(),
        [("a", None), ("c", Some("3"))].as_slice(),
        [("b", Some("4")), ("d", Some("5")), ("a", Some("6"))].as_slice(),
        [("d", None)].as_slice(),
        [("e", Some("7")), ("b", None)].as_slice(),
        [("f", Some("8"))].as_slice(),
        [].as_slice(),
        [("a", Some("9")), ("g", Some(""))].as_slice(),
    ] {
        engine.write(&mut env, batch_of(alloc, changes)?, false)?;
    }
    engine.abandon(&mut env)?;
    files_on(alloc, &mut env)
}

/// The files of a small store, as of the rows by hand.
pub fn small_files(alloc: Global) -> Result<Vec<File>> {
    let mut env = MemEnv::new(alloc);
    let mut engine = opened(alloc, &mut env, buffered(1))?;
    engine.put(&mut env, b"a", b"1")?;
    engine.put(&mut env, b"b", b"2")?;
    engine.abandon(&mut env)?;
    files_on(alloc, &mut env)
}

/// Each file taken away, and one of so many of its bytes raised or the file cut there. Returns how many folders there were, and of how many the repair was Ok.
pub fn damage_each(
    rt: &impl Abort,
    alloc: Global,
    files: &[File],
    every: usize,
) -> Result<(usize, usize)> {
    let mut folders = 0;
    let mut repaired = 0;
    let mut turn: usize = 0;
    for (name, bytes) in files {
        let mut changes = Vec::new(alloc);
        changes.push(Change::TakenAway)?;
        for at in 0..bytes.len() {
            for change in [Change::Cut(at), Change::Raised(at)] {
                turn += 1;
                if turn % every == 0 {
                    changes.push(change)?;
                }
            }
        }
        for change in changes {
            let mut env = disk_with(alloc, files, name, change)?;
            let what = format!(in alloc; "{name}, {change:?}")?;
            folders += 1;
            repaired += usize::from(repair_beside_slow(rt, alloc, &mut env, &what)?);
        }
    }
    Ok((folders, repaired))
}

#[test]
fn some_bytes_of_a_small_store(rt: HostRuntime) -> Result<()> {
    let alloc = rt.alloc();
    let (_, repaired) = damage_each(&rt, alloc, &small_files(alloc)?, 29)?;
    assert!(rt; repaired > 12, "{repaired}");
    Ok(())
}

#[test]
fn some_bytes_of_a_larger_store(rt: HostRuntime) -> Result<()> {
    let alloc = rt.alloc();
    let (_, repaired) = damage_each(&rt, alloc, &larger_files(alloc)?, 163)?;
    assert!(rt; repaired > 4, "{repaired}");
    Ok(())
}

// ---- several files

/// Damages some files of a folder, takes others away, and gives some another name or a copy.
fn shuffled(alloc: Global, random: &mut Random, files: &[File]) -> Result<MemEnv> {
    let mut env = MemEnv::new(alloc);
    for (name, bytes) in files {
        let mut bytes = bytes.clone()?;
        let at = random.below(bytes.len() as u64 + 1) as usize;
        match random.below(8) {
            0 => continue,
            1 => bytes.truncate(at),
            2 => change_byte(bytes.as_mut_slice(), at, 1),
            3 => bytes.extend_from_slice(b"more")?,
            _ => {}
        }
        put_file(alloc, &mut env, name, bytes.as_slice())?;
        let other = match (random.below(6), name.as_str().split_once('.')) {
            (0, Some((_, "ldb"))) => format!(in alloc; "{}.sst", 90 + random.below(9))?,
            (0, Some((_, "log"))) => format!(in alloc; "{}.log", 90 + random.below(9))?,
            _ => continue,
        };
        put_file(alloc, &mut env, &other, bytes.as_slice())?;
    }
    Ok(env)
}

/// Folders in which several files are damaged, missing or there twice.
pub fn shuffle(rt: &impl Abort, alloc: Global, rounds: u64) -> Result<usize> {
    let mut random = Random(29);
    let files = larger_files(alloc)?;
    let mut count = 0;
    for round in 0..rounds {
        let mut env = shuffled(alloc, &mut random, &files)?;
        let what = format!(in alloc; "round {round}")?;
        count += usize::from(repair_beside_slow(rt, alloc, &mut env, &what)?);
    }
    Ok(count)
}

#[test]
fn several_files(rt: HostRuntime) -> Result<()> {
    let count = shuffle(&rt, rt.alloc(), 8)?;
    assert!(rt; count > 4, "{count}");
    Ok(())
}

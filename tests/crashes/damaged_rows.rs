//! A store of a table with a, a log with b and no more, with one or two of its files changed: what
//! its opening returns, and what is found.
use super::log_records::{log_of, records_of};
use super::replies::bytes_of;
use leveldb_base::crc::{crc32, mask_crc};
use leveldb_base::error::{Result, StatusCode};
use leveldb_env::env::Env;
use leveldb_env::mem_env::MemEnv;
use leveldb_env::options::Options;
use rusty_leveldb::shell::{Command, Reply, run};
use std::alloc::Global;
use std::process::Abort;
use support::{Change, File, bytes_in, disk_of, disk_with, files_on, put_file};

const CURRENT: &str = "CURRENT";

const MANIFEST: &str = "MANIFEST-000001";

const LOG: &str = "000004.log";

const TABLE: &str = "000005.ldb";

/// What a look-up of a key replies.
#[derive(Clone, Copy, Debug)]
enum Got {
    Value(&'static [u8]),
    Nothing,
    Fails(StatusCode),
}

/// What an opening returns: an error, or a store in which this is found of a, b and c.
#[derive(Clone, Copy, Debug)]
enum Opened {
    Fails(StatusCode),
    Finds([Got; 3]),
}

const DAMAGED: Opened = Opened::Fails(StatusCode::Corruption);

/// a can't be read, and b is in the log.
const WITHOUT_A: Opened = Opened::Finds([
    Got::Fails(StatusCode::Corruption),
    Got::Value(b"2"),
    Got::Nothing,
]);

const A_ALONE: Opened = Opened::Finds([Got::Value(b"1"), Got::Nothing, Got::Nothing]);

const BOTH: Opened = Opened::Finds([Got::Value(b"1"), Got::Value(b"2"), Got::Nothing]);

fn add_put(alloc: Global, commands: &mut Vec<Command>, key: &str, value: &str) -> Result<()> {
    commands.push(Command::Put(bytes_of(alloc, key)?, bytes_of(alloc, value)?))?;
    Ok(())
}

/// A disk with a store to which these pairs were put, each of which but the last is in a table of
/// its own.
fn store_of(alloc: Global, pairs: &[(&str, &str)]) -> Result<MemEnv> {
    let mut env = MemEnv::new(alloc);
    let mut options = Options::default();
    options.write_buffer_size = 1;
    let mut commands = Vec::new(alloc);
    for (key, value) in pairs {
        add_put(alloc, &mut commands, key, value)?;
    }
    let mut replies = Vec::new(alloc);
    run(&mut env, "db", options, &commands, &mut replies)?;
    Ok(env)
}

/// The files of the store of a and b.
fn sound_files(alloc: Global) -> Result<Vec<File>> {
    let mut env = store_of(alloc, &[("a", "1"), ("b", "2")])?;
    files_on(alloc, &mut env)
}

fn is_got(reply: &Reply, wanted: &Got) -> bool {
    match (reply, wanted) {
        (Reply::Value(value), Got::Value(wanted)) => value.as_slice() == *wanted,
        (Reply::Nothing, Got::Nothing) => true,
        (Reply::Refused(status), Got::Fails(code)) => status.code == *code,
        _ => false,
    }
}

fn are_got(replies: &[Reply], wanted: &[Got]) -> bool {
    replies.len() == wanted.len()
        && replies
            .iter()
            .zip(wanted)
            .all(|(reply, wanted)| is_got(reply, wanted))
}

/// Whether each of the files before is there, with the bytes that it had.
fn have_all(before: &[File], after: &[File]) -> bool {
    before.iter().all(|file| bytes_in(after, file.0.as_str()) == Some(file.1.as_slice()))
}

fn ask_three(alloc: Global) -> Result<Vec<Command>> {
    let mut commands = Vec::new(alloc);
    for key in ["a", "b", "c"] {
        commands.push(Command::Get(bytes_of(alloc, key)?))?;
    }
    Ok(commands)
}

/// Whether an opening of this disk returns that. Where it fails, each file stays as it is, and the
/// lock is free.
fn opens_so(alloc: Global, env: &mut MemEnv, wanted: Opened) -> Result<bool> {
    let before = files_on(alloc, env)?;
    let mut replies = Vec::new(alloc);
    let commands = ask_three(alloc)?;
    let opened = run(env, "db", Options::default(), &commands, &mut replies);
    env.lock("db/LOCK")?;
    env.unlock("db/LOCK")?;
    let after = files_on(alloc, env)?;
    Ok(match (opened, wanted) {
        (Err(status), Opened::Fails(code)) => status.code == code && have_all(&before, &after),
        (Ok(()), Opened::Finds(got)) => are_got(&replies, &got),
        _ => false,
    })
}

/// One change of one file, and what an opening then returns.
const ROWS: &[(&str, Change, Opened)] = &[
    (CURRENT, Change::Cut(15), DAMAGED),
    (CURRENT, Change::TakenAway, DAMAGED),
    (MANIFEST, Change::Cut(40), DAMAGED),
    (TABLE, Change::TakenAway, DAMAGED),
    (TABLE, Change::Cut(176), DAMAGED),
    (TABLE, Change::Raised(0), WITHOUT_A),
    (TABLE, Change::Raised(176), WITHOUT_A),
    (LOG, Change::Cut(23), A_ALONE),
    (LOG, Change::Cut(24), BOTH),
];

#[test]
fn one_change(rt: HostRuntime) -> Result<()> {
    let alloc = rt.alloc();
    let files = sound_files(alloc)?;
    for (name, change, opened) in ROWS {
        let mut env = disk_with(alloc, &files, *name, *change)?;
        assert!(rt; opens_so(alloc, &mut env, *opened)?, "{name}, {change:?}");
    }
    Ok(())
}

/// A log that is torn, and a byte in a later one.
#[test]
fn a_byte_behind_a_torn_log(rt: HostRuntime) -> Result<()> {
    let alloc = rt.alloc();
    let mut env = disk_with(alloc, &sound_files(alloc)?, LOG, Change::Cut(23))?;
    put_file(alloc, &mut env, "000006.log", b"x")?;
    assert!(rt; opens_so(alloc, &mut env, DAMAGED)?);
    Ok(())
}

#[test]
fn a_foreign_file(rt: HostRuntime) -> Result<()> {
    let alloc = rt.alloc();
    let mut env = disk_of(alloc, &sound_files(alloc)?)?;
    put_file(alloc, &mut env, "notes.txt", b"notes")?;
    assert!(rt; opens_so(alloc, &mut env, BOTH)?);
    let files = files_on(alloc, &mut env)?;
    assert!(rt; bytes_in(&files, "notes.txt") == Some(b"notes".as_slice()));
    Ok(())
}

/// The table has a byte more than its edit says.
#[test]
fn a_table_that_is_too_long(rt: HostRuntime) -> Result<()> {
    let alloc = rt.alloc();
    let files = sound_files(alloc)?;
    let mut env = disk_of(alloc, &files)?;
    let mut table = Vec::from_slice(alloc, bytes_in(&files, TABLE).unwrap_or_default())?;
    table.push(0)?;
    put_file(alloc, &mut env, TABLE, &table)?;
    assert!(rt; opens_so(alloc, &mut env, DAMAGED)?);
    Ok(())
}

/// A record that is whole, and no batch.
#[test]
fn a_record_that_is_no_batch(rt: HostRuntime) -> Result<()> {
    let alloc = rt.alloc();
    let mut env = store_of(alloc, &[("a", "1"), ("b", "2")])?;
    let mut records = Vec::new(alloc);
    records.push(bytes_of(alloc, "abc")?)?;
    put_file(alloc, &mut env, LOG, &log_of(alloc, &records)?)?;
    assert!(rt; opens_so(alloc, &mut env, DAMAGED)?);
    Ok(())
}

/// The data block of the table has 21 bytes, then its type and its checksum. This type is that of a
/// compressor that isn't set.
#[test]
fn a_block_without_its_compressor(rt: HostRuntime) -> Result<()> {
    let alloc = rt.alloc();
    let mut env = store_of(alloc, &[("a", "1"), ("b", "2")])?;
    let files = files_on(alloc, &mut env)?;
    let mut table = Vec::from_slice(alloc, bytes_in(&files, TABLE).unwrap_or_default())?;
    assert!(rt; table.len() == 177 && table[21] == 0);
    table[21] = 1;
    let sum = mask_crc(crc32(&table[..22]));
    table[22..26].copy_from_slice(&sum.to_le_bytes());
    put_file(alloc, &mut env, TABLE, &table)?;
    let wanted = Opened::Finds([
        Got::Fails(StatusCode::NotSupported),
        Got::Value(b"2"),
        Got::Nothing,
    ]);
    assert!(rt; opens_so(alloc, &mut env, wanted)?);
    Ok(())
}

/// The edits of the manifest.
fn edits_on(alloc: Global, env: &mut MemEnv) -> Result<Vec<Vec<u8>>> {
    let files = files_on(alloc, env)?;
    records_of(alloc, bytes_in(&files, MANIFEST).unwrap_or_default())
}

/// The offset of the level in the second edit, which ends with a table: its tag is 7, and its
/// number is 5.
const LEVEL_AT: usize = 9;

/// Puts the first table into this level, in its edit of the manifest.
fn move_first_table(rt: &impl Abort, alloc: Global, env: &mut MemEnv, level: u8) -> Result<()> {
    let mut edits = edits_on(alloc, env)?;
    assert!(rt;
        edits.len() >= 2
            && edits[1].as_slice().get(LEVEL_AT - 1..LEVEL_AT + 2) == Some([7u8, 2, 5].as_slice())
    );
    edits[1][LEVEL_AT] = level;
    put_file(alloc, env, MANIFEST, &log_of(alloc, &edits)?)
}

#[test]
fn a_level_that_is_not_there(rt: HostRuntime) -> Result<()> {
    let alloc = rt.alloc();
    let mut env = store_of(alloc, &[("a", "1"), ("b", "2")])?;
    move_first_table(&rt, alloc, &mut env, 7)?;
    assert!(rt; opens_so(alloc, &mut env, DAMAGED)?);
    Ok(())
}

/// A table of level 2 with a is put into level 1, where another has a newer a.
#[test]
fn tables_of_a_level_that_share_a_key(rt: HostRuntime) -> Result<()> {
    let alloc = rt.alloc();
    let mut env = store_of(alloc, &[("a", "0"), ("a", "1"), ("b", "2")])?;
    assert!(rt; opens_so(alloc, &mut env, BOTH)?);
    move_first_table(&rt, alloc, &mut env, 1)?;
    let wanted = Opened::Fails(StatusCode::NotSupported);
    assert!(rt; opens_so(alloc, &mut env, wanted)?);
    Ok(())
}

//! Logs as far as they are found, beside a plain reading of the whole files.
use super::lists::{joined, pair_word, word_of};
use leveldb_base::cmp::DefaultCmp;
use leveldb_base::error::{Result, StatusCode};
use leveldb_base::names::parse_file_name;
use leveldb_base::types::{FileMetaData, FileType, LdbIterator, MAX_SEQUENCE_NUMBER};
use leveldb_disks::mem_env::{MemEnv, RecordEnv};
use leveldb_env::env::Env;
use leveldb_env::infolog::Logger;
use leveldb_mem::log::{LogWriter, read_log_file};
use leveldb_mem::memtable::MemTable;
use leveldb_mem::write_batch::WriteBatch;
use leveldb_repair::found_logs::found_logs;
use leveldb_repair::numbers::{greatest_in_folder, greatest_number};
use leveldb_store::opening::listing::list_files;
use leveldb_version::version_edit::VersionEdit;
use std::alloc::Global;
use std::process::Abort;
use support::{Lines, OnlyReads, Random, ShortReads, change_byte, failed_with, put_file};

/// A record of a log: a batch from this number on, of puts of these keys and then of deletions of
/// those; or bytes that are none.
#[derive(Clone, Copy)]
pub(super) enum Record {
    Batch(u64, &'static str, &'static str),
    Other(&'static [u8]),
}

use Record::{Batch, Other};

/// A log's name, and its records.
pub(super) type Log = (&'static str, &'static [Record]);

/// The batch of a record: each key is one letter, and its value is its number's last digit.
fn batch_of(alloc: Global, first: u64, puts: &str, deleted: &str) -> Result<WriteBatch> {
    let mut batch = WriteBatch::new(alloc)?;
    for key in puts.as_bytes().chunks(1) {
        let value = format!(in alloc; "{}", first % 10)?;
        batch.put(key, value.as_bytes())?;
    }
    for key in deleted.as_bytes().chunks(1) {
        batch.delete(key)?;
    }
    batch.set_sequence(first);
    Ok(batch)
}

/// The bytes of a log of these records.
pub(super) fn log_of(alloc: Global, records: &[Record]) -> Result<Vec<u8>> {
    let mut writer = LogWriter::new(alloc, Vec::new(alloc));
    for record in records {
        match *record {
            Batch(first, puts, deleted) => {
                let batch = batch_of(alloc, first, puts, deleted)?;
                writer.add_record(batch.contents())?;
            }
            Other(bytes) => {
                writer.add_record(bytes)?;
            }
        }
    }
    Ok(writer.sink)
}

pub(super) fn put_logs<E: Env>(alloc: Global, env: &mut E, logs: &[Log]) -> Result<()> {
    for (name, records) in logs {
        put_file(alloc, env, name, &log_of(alloc, records)?)?;
    }
    Ok(())
}

/// The words of a memtable's entries.
fn words_in(alloc: Global, table: &MemTable<DefaultCmp>) -> Result<Vec<String>> {
    let mut words = Vec::new(alloc);
    let mut iter = table.iter();
    while iter.advance()? {
        if let Some((key, value)) = iter.current() {
            words.push(pair_word(alloc, key, value)?)?;
        }
    }
    Ok(words)
}

fn found_tables<E: Env>(
    alloc: Global,
    env: &mut E,
    log: &mut Option<Logger>,
) -> Result<Vec<MemTable<DefaultCmp>>> {
    let files = list_files(alloc, env, "db")?;
    found_logs(alloc, env, "db", DefaultCmp, &files, log)
}

/// What is found of the logs: words with a space before each, and a bar after each memtable.
fn found<E: Env>(alloc: Global, env: &mut E, log: &mut Option<Logger>) -> Result<String> {
    let mut text = String::new(alloc);
    for table in &found_tables(alloc, env, log)? {
        text.push_str(&joined(alloc, &words_in(alloc, table)?)?)?;
        text.push_str(" |")?;
    }
    Ok(text)
}

/// Logs, what is found of them, and the line that is told, if one is.
const ROWS: &[(&[Log], &str, &str)] = &[
    (&[("000003.log", &[])], "", ""),
    (
        &[(
            "000003.log",
            &[Batch(1, "ab", ""), Batch(3, "", "a"), Batch(4, "", "")],
        )],
        " 3a- 1a=1 2b=1 |",
        "",
    ),
    // numbers that fall, in a log and from one log to the next
    (
        &[(
            "000003.log",
            &[Batch(7, "a", ""), Batch(2, "b", ""), Batch(3, "c", "")],
        )],
        " 7a=7 | 2b=2 3c=3 |",
        "",
    ),
    (
        &[
            ("000003.log", &[Batch(5, "a", "")]),
            ("000004.log", &[Batch(5, "a", ""), Batch(6, "b", "")]),
        ],
        " 5a=5 | 5a=5 6b=6 |",
        "",
    ),
    // one number whose log has another name, too
    (
        &[
            ("000003.log", &[Batch(1, "a", "")]),
            ("3.log", &[Batch(2, "b", "")]),
        ],
        " 1a=1 2b=2 |",
        "",
    ),
    // no log: its name is of no store's file, or of another type
    (
        &[
            ("000003.dbtmp", &[Batch(1, "a", "")]),
            ("3.logs", &[Batch(1, "b", "")]),
            ("+3.log", &[Batch(1, "c", "")]),
            ("MANIFEST-000003", &[Batch(1, "d", "")]),
        ],
        "",
        "",
    ),
    // records that are no batch of a store
    (
        &[(
            "000003.log",
            &[Batch(1, "a", ""), Other(b"none"), Batch(2, "b", "")],
        )],
        " 1a=1 |",
        "db/000003.log: 35 bytes from byte 24 on are left out, no batch comes there\n",
    ),
    (
        &[
            ("000003.log", &[Batch(0, "a", "")]),
            ("000004.log", &[Batch(1, "b", "")]),
        ],
        " 1b=1 |",
        "db/000003.log: 24 bytes from byte 0 on are left out, no batch comes there\n",
    ),
    (
        &[(
            "000003.log",
            &[Batch(1, "a", ""), Batch(0, "", ""), Batch(2, "b", "")],
        )],
        " 1a=1 |",
        "db/000003.log: 43 bytes from byte 24 on are left out, no batch comes there\n",
    ),
    (
        &[("000003.log", &[Batch(MAX_SEQUENCE_NUMBER, "a", "")])],
        " 72057594037927935a=5 |",
        "",
    ),
    (
        &[("000003.log", &[Batch(MAX_SEQUENCE_NUMBER, "ab", "")])],
        "",
        "db/000003.log: 29 bytes from byte 0 on are left out, no batch comes there\n",
    ),
    (
        &[("000003.log", &[Batch(MAX_SEQUENCE_NUMBER + 1, "", "")])],
        "",
        "db/000003.log: 19 bytes from byte 0 on are left out, no batch comes there\n",
    ),
];

#[test]
fn rows_by_hand(rt: HostRuntime) -> Result<()> {
    let alloc = rt.alloc();
    for (i, (logs, wanted, line)) in ROWS.iter().enumerate() {
        let mut env = OnlyReads::of(MemEnv::new(alloc));
        put_logs(alloc, &mut env.env, logs)?;
        let lines = Lines::new(alloc)?;
        let mut log = Some(lines.log(alloc, line)?);
        let text = found(alloc, &mut env, &mut log)?;
        assert!(rt; text.as_str() == *wanted, "row {i}: {text}");
        let are_right = if line.is_empty() {
            lines.counts() == (0, 0)
        } else {
            lines.are_right()?
        };
        assert!(rt; are_right, "row {i}: other lines");
        assert!(rt; env.rule.refused == 0, "row {i}: a file was to change");
        let unlogged = found(alloc, &mut env, &mut None)?;
        assert!(rt; unlogged.as_str() == *wanted, "row {i}: {unlogged}");
    }
    Ok(())
}

/// A bad end, with and without whole records after it.
#[test]
fn bad_ends_are_told(rt: HostRuntime) -> Result<()> {
    let alloc = rt.alloc();
    let records = [Batch(1, "a", ""), Batch(2, "b", ""), Batch(3, "c", "")];
    let whole = log_of(alloc, &records)?;
    for (cut, at, wanted, line) in [
        (
            60,
            60,
            " 1a=1 2b=2 |",
            "db/3.log: 12 bytes from byte 48 on are left out, no whole record among them\n",
        ),
        (
            72,
            30,
            " 1a=1 |",
            "db/3.log: 48 bytes from byte 24 on are left out, whole records among them\n",
        ),
        (
            72,
            60,
            " 1a=1 2b=2 |",
            "db/3.log: 24 bytes from byte 48 on are left out, no whole record among them\n",
        ),
    ] {
        let mut env = MemEnv::new(alloc);
        let mut bytes = whole.clone()?;
        bytes.truncate(cut);
        change_byte(&mut bytes, at, 1);
        put_file(alloc, &mut env, "3.log", &bytes)?;
        let lines = Lines::new(alloc)?;
        let mut log = Some(lines.log(alloc, line)?);
        let text = found(alloc, &mut env, &mut log)?;
        assert!(rt; text.as_str() == wanted, "byte {at} of {cut}: {text}");
        assert!(rt; lines.are_right()?, "byte {at} of {cut}: another line");
    }
    Ok(())
}

// ---- random logs

/// The words of a batch's entries, if it has numbers that entries may have.
fn words_of(alloc: Global, record: &[u8]) -> Result<Option<Vec<String>>> {
    let mut batch = WriteBatch::new(alloc)?;
    if failed_with(batch.set_contents(record), StatusCode::InvalidArgument)? {
        return Ok(None);
    }
    let mut words = Vec::new(alloc);
    let mut number = batch.sequence();
    if number == 0 || number > MAX_SEQUENCE_NUMBER {
        return Ok(None);
    }
    for (key, value) in batch.iter() {
        if number > MAX_SEQUENCE_NUMBER {
            return Ok(None);
        }
        words.push(word_of(alloc, number, key, value)?)?;
        number += 1;
    }
    Ok(Some(words))
}

/// The words of all entries in the folder's logs, sorted.
fn slow_words<E: Env>(alloc: Global, env: &mut E) -> Result<Vec<String>> {
    let mut all = Vec::new(alloc);
    for name in &env.children(alloc, "db")? {
        let Ok((_, FileType::Log)) = parse_file_name(alloc, name) else {
            continue;
        };
        let path = format!(in alloc; "db/{name}")?;
        let (records, _) = read_log_file(alloc, env, &path)?;
        for record in &records {
            let Some(words) = words_of(alloc, record)? else {
                break;
            };
            for word in words {
                all.push(word)?;
            }
        }
    }
    all.sort()?;
    Ok(all)
}

/// The words of all entries that are found, sorted.
fn found_words<E: Env>(alloc: Global, env: &mut E) -> Result<Vec<String>> {
    let mut all = Vec::new(alloc);
    for table in &found_tables(alloc, env, &mut None)? {
        for word in words_in(alloc, table)? {
            all.push(word)?;
        }
    }
    all.sort()?;
    Ok(all)
}

const FIRSTS: &[u64] = &[
    0,
    1,
    5,
    1000,
    MAX_SEQUENCE_NUMBER - 1,
    MAX_SEQUENCE_NUMBER,
    MAX_SEQUENCE_NUMBER + 1,
    u64::MAX,
];

/// Adds a record: mostly a batch above the one before, else one of other numbers or no batch.
fn add_record(
    alloc: Global,
    random: &mut Random,
    writer: &mut LogWriter<Vec<u8>>,
    next: &mut u64,
    long: &usize,
) -> Result<()> {
    let first = match random.below(8) {
        0 => FIRSTS[random.below(FIRSTS.len() as u64) as usize],
        1 => random.below(40),
        _ => *next,
    };
    let mut batch = WriteBatch::new(alloc)?;
    for _ in 0..random.below(4) {
        let key = format!(in alloc; "{}", random.below(30))?;
        if random.below(4) == 0 {
            batch.delete(key.as_bytes())?;
        } else {
            let mut value = Vec::new(alloc);
            value.resize([1, 30, 300, *long][random.below(4) as usize], b'v')?;
            batch.put(key.as_bytes(), &value)?;
        }
    }
    batch.set_sequence(first);
    *next = first.wrapping_add(u64::from(batch.count())) % (1 << 50);
    let mut bytes = Vec::new(alloc);
    bytes.extend_from_slice(batch.contents())?;
    if random.below(12) == 0 {
        bytes.push(7)?;
    }
    writer.add_record(&bytes)?;
    Ok(())
}

/// Puts one to three logs, cut, damaged or whole, under names that a store gives and others.
fn put_random<E: Env>(alloc: Global, random: &mut Random, env: &mut E) -> Result<()> {
    let mut next = 1;
    // in one folder of eight there are records over several blocks
    let long = if random.below(8) == 0 { 20_000 } else { 3 };
    for number in 0..=random.below(3) {
        let mut writer = LogWriter::new(alloc, Vec::new(alloc));
        for _ in 0..random.below(9) {
            add_record(alloc, random, &mut writer, &mut next, &long)?;
        }
        let mut bytes = writer.sink;
        let at = random.below(bytes.len() as u64 + 1) as usize;
        match random.below(4) {
            0 => bytes.truncate(at),
            1 => change_byte(&mut bytes, at, 1),
            _ => {}
        }
        let number = number / 2 + 7;
        let name = if random.below(2) == 0 {
            format!(in alloc; "{number:06}.log")?
        } else {
            format!(in alloc; "{number}.log")?
        };
        put_file(alloc, env, &name, &bytes)?;
    }
    Ok(())
}

/// Asserts that as much is found as a plain reading finds, in both environments.
fn assert_found(
    rt: &impl Abort,
    alloc: Global,
    env: &mut MemEnv,
    short: &mut ShortReads<MemEnv>,
    round: usize,
) -> Result<usize> {
    let slow = slow_words(alloc, env)?;
    assert!(rt;
        found_words(alloc, env)? == slow,
        "round {round}: other entries"
    );
    assert!(rt;
        found_words(alloc, short)? == slow,
        "round {round}: other entries in few bytes"
    );
    Ok(slow.len())
}

#[test]
fn random_logs_beside_a_plain_reading(rt: HostRuntime) -> Result<()> {
    let alloc = rt.alloc();
    let mut entries = 0;
    for round in 0..60 {
        let mut env = MemEnv::new(alloc);
        put_random(alloc, &mut Random(round as u64), &mut env)?;
        let mut short = ShortReads::new(MemEnv::new(alloc));
        put_random(alloc, &mut Random(round as u64), &mut short.env)?;
        entries += assert_found(&rt, alloc, &mut env, &mut short, round)?;
    }
    assert!(rt; entries > 200, "{entries} entries");
    Ok(())
}

// ---- failures

const BESIDE: &[Log] = &[
    (
        "000003.log",
        &[Batch(5, "ab", ""), Batch(2, "c", ""), Other(b"none")],
    ),
    ("3.log", &[Batch(9, "", "a")]),
];

/// Each call of the device fails once: so does the finding, and the next one finds all.
#[test]
fn each_failed_call_fails_it(rt: HostRuntime) -> Result<()> {
    let alloc = rt.alloc();
    let mut failures = 0;
    for call in 1..100 {
        let mut env = RecordEnv::new(alloc);
        put_logs(alloc, &mut env, BESIDE)?;
        let lines = Lines::new(alloc)?;
        let mut log = Some(lines.log(alloc, "none")?);
        env.fail(call, false);
        let first = found(alloc, &mut env, &mut log);
        if first.is_ok() {
            break;
        }
        assert!(rt;
            failed_with(first, StatusCode::IOError)?,
            "call {call}: another error"
        );
        let again = found(alloc, &mut env, &mut log)?;
        assert!(rt;
            again.as_str() == " 5a=5 6b=5 | 9a- 2c=2 |",
            "call {call}: {again}"
        );
        failures += 1;
    }
    assert!(rt; failures > 8 && failures < 98, "{failures} failures");
    Ok(())
}

/// A log that is gone since the folder was listed.
#[test]
fn a_missing_log_is_corruption(rt: HostRuntime) -> Result<()> {
    let alloc = rt.alloc();
    let mut env = MemEnv::new(alloc);
    put_logs(alloc, &mut env, BESIDE)?;
    let files = list_files(alloc, &mut env, "db")?;
    env.delete("db/3.log")?;
    let none = found_logs(alloc, &mut env, "db", DefaultCmp, &files, &mut None);
    assert!(rt; failed_with(none, StatusCode::Corruption)?);
    Ok(())
}

#[test]
fn the_greatest_number_is_of_all_names(rt: HostRuntime) -> Result<()> {
    let alloc = rt.alloc();
    for (names, wanted) in [
        (["CURRENT", "LOCK", "LOG"], 0),
        (["3.log", "000002.ldb", "MANIFEST-000001"], 3),
        (["000002.log", "4.sst", "CURRENT"], 4),
        (["MANIFEST-7", "000002.log", "000006.ldb"], 7),
        (
            [
                "18446744073709551615.dbtmp",
                "1.log",
                "18446744073709551616.log",
            ],
            u64::MAX,
        ),
    ] {
        let mut env = MemEnv::new(alloc);
        for name in &names {
            put_file(alloc, &mut env, name, b"")?;
        }
        let files = list_files(alloc, &mut env, "db")?;
        assert!(rt; greatest_number(&files) == wanted, "{wanted}");
    }
    Ok(())
}

/// Numbers that an edit has: its log's, the one before, the next file's, and that of a file that it
/// adds.
type Numbers = (Option<u64>, Option<u64>, Option<u64>, Option<u64>);

/// The record of an edit with these numbers.
fn edit_record(alloc: Global, numbers: Numbers) -> Result<Vec<u8>> {
    let mut edit = VersionEdit::new(alloc);
    edit.log_number = numbers.0;
    edit.prev_log_number = numbers.1;
    edit.next_file_number = numbers.2;
    if let Some(number) = numbers.3 {
        let mut file = FileMetaData::default();
        file.num = number;
        edit.add_file(1, file)?;
    }
    edit.encode(alloc)
}

/// A manifest of these records.
fn manifest_of(alloc: Global, records: &[Vec<u8>]) -> Result<Vec<u8>> {
    let mut writer = LogWriter::new(alloc, Vec::new(alloc));
    for record in records {
        writer.add_record(record)?;
    }
    Ok(writer.sink)
}

/// The greatest number of a folder with a log of number 3 and a manifest of these bytes.
fn greatest_with(alloc: Global, manifest: &[u8]) -> Result<u64> {
    let mut env = MemEnv::new(alloc);
    put_file(alloc, &mut env, "000003.log", b"")?;
    put_file(alloc, &mut env, "MANIFEST-000001", manifest)?;
    let files = list_files(alloc, &mut env, "db")?;
    greatest_in_folder(alloc, &mut env, "db", &files)
}

#[test]
fn the_greatest_number_is_of_manifests_too(rt: HostRuntime) -> Result<()> {
    let alloc = rt.alloc();
    for (numbers, wanted) in [
        ((None, None, None, None), 3),
        ((Some(2), Some(0), Some(4), Some(1)), 3),
        ((Some(40), None, None, None), 40),
        ((None, Some(41), None, None), 41),
        ((None, None, Some(43), None), 42),
        ((None, None, Some(0), None), 3),
        ((None, None, None, Some(44)), 44),
        ((Some(5), Some(6), Some(9), Some(7)), 8),
        ((Some(u64::MAX), None, None, None), u64::MAX),
    ] {
        let mut records = Vec::new(alloc);
        records.push(edit_record(alloc, numbers)?)?;
        records.push(edit_record(alloc, (Some(1), None, Some(2), None))?)?;
        let greatest = greatest_with(alloc, &manifest_of(alloc, &records)?)?;
        assert!(rt; greatest == wanted, "{numbers:?}: {greatest}");
    }
    Ok(())
}

/// A manifest is read up to its first bad end, and not at all if one of its records is no edit.
#[test]
fn manifests_are_read_to_their_first_bad_end(rt: HostRuntime) -> Result<()> {
    let alloc = rt.alloc();
    let mut records = Vec::new(alloc);
    records.push(edit_record(alloc, (Some(10), None, None, None))?)?;
    records.push(edit_record(alloc, (Some(20), None, None, None))?)?;
    let whole = manifest_of(alloc, &records)?;
    for (cut, wanted) in [
        (whole.len(), 20),
        (whole.len() - 1, 10),
        (9, 10),
        (8, 3),
        (0, 3),
    ] {
        let greatest = greatest_with(alloc, &whole[..cut])?;
        assert!(rt; greatest == wanted, "{cut}: {greatest}");
    }
    let mut changed = Vec::from_slice(alloc, &whole)?;
    change_byte(&mut changed, 8, 1);
    assert!(rt; greatest_with(alloc, &changed)? == 3);
    let mut no_edit = Vec::new(alloc);
    no_edit.push(edit_record(alloc, (Some(10), None, None, None))?)?;
    no_edit.push(Vec::from_slice(alloc, b"x")?)?;
    no_edit.push(edit_record(alloc, (Some(30), None, None, None))?)?;
    assert!(rt; greatest_with(alloc, &manifest_of(alloc, &no_edit)?)? == 3);
    Ok(())
}

/// Each call of the device that reads manifests may fail.
#[test]
fn reading_manifests_may_fail(rt: HostRuntime) -> Result<()> {
    let alloc = rt.alloc();
    let mut records = Vec::new(alloc);
    records.push(edit_record(alloc, (Some(10), None, None, None))?)?;
    let mut failures = 0;
    for call in 1..100 {
        let mut env = RecordEnv::new(alloc);
        put_file(
            alloc,
            &mut env,
            "MANIFEST-000001",
            &manifest_of(alloc, &records)?,
        )?;
        let files = list_files(alloc, &mut env, "db")?;
        env.fail(call, false);
        let first = greatest_in_folder(alloc, &mut env, "db", &files);
        if first.is_ok() {
            break;
        }
        assert!(rt; failed_with(first, StatusCode::IOError)?, "call {call}");
        let again = greatest_in_folder(alloc, &mut env, "db", &files)?;
        assert!(rt; again == 10, "call {call}: {again}");
        failures += 1;
    }
    assert!(rt; failures > 2 && failures < 98, "{failures} failures");
    Ok(())
}

//! The readable tables of a folder, beside a plain reading of the whole files.
use super::lists::{Row, joined, pair_of, pair_word};
use leveldb_base::cmp::DefaultCmp;
use leveldb_base::error::{Result, StatusCode};
use leveldb_base::names::parse_file_name;
use leveldb_base::types::{FileType, MAX_SEQUENCE_NUMBER};
use leveldb_disks::mem_env::{MemEnv, RecordEnv};
use leveldb_env::compressor::CompressorList;
use leveldb_env::env::Env;
use leveldb_env::env::whole_files::read_file;
use leveldb_env::filter::BloomPolicy;
use leveldb_env::infolog::Logger;
use leveldb_env::options::Options;
use leveldb_iter::walk::Walk;
use leveldb_repair::found_tables::found_tables;
use leveldb_repair::found_walk::{FoundTable, ReadFiles};
use leveldb_store::opening::listing::list_files;
use leveldb_table::table_builder::TableBuilder;
use slow_store::table_pairs;
use std::alloc::Global;
use std::process::Abort;
use support::{Lines, OnlyReads, Raised, Random, ShortReads, change_byte, failed_with, put_file};

type Choices = Options<DefaultCmp, BloomPolicy>;

/// A table's name, and its rows in their order.
type Table = (&'static str, &'static [Row]);

/// Options with blocks of few pairs, and filters.
fn small() -> Choices {
    let mut options = Options::default();
    options.block_size = 40;
    options
}

/// The bytes of a table of these rows.
fn table_of(alloc: Global, options: &Choices, rows: &[Row]) -> Result<Vec<u8>> {
    let compressors = &options.compressor_list;
    let mut builder = TableBuilder::new(alloc, options, Vec::new(alloc));
    for row in rows {
        let (key, value) = pair_of(alloc, row)?;
        builder.add(compressors, &key, &value)?;
    }
    let (bytes, size) = builder.finish(compressors);
    size?;
    Ok(bytes)
}

fn put_tables<E: Env>(alloc: Global, env: &mut E, tables: &[Table]) -> Result<()> {
    for (name, rows) in tables {
        put_file(alloc, env, name, &table_of(alloc, &small(), rows)?)?;
    }
    Ok(())
}

/// Goes over a walk that is at no pair, and adds the words of its pairs.
fn add_words<E, T, W: Walk<E, T>>(
    rt: &impl Abort,
    alloc: Global,
    env: &mut E,
    files: &mut T,
    walk: &mut W,
    words: &mut Vec<String>,
) -> Result<()> {
    assert!(rt; !walk.valid(), "a new walk is at a pair");
    while walk.advance(env, files)? {
        if let Some((key, value)) = walk.current() {
            words.push(pair_word(alloc, key, value)?)?;
        }
    }
    Ok(())
}

fn walks_in<E: Env>(
    alloc: Global,
    env: &mut E,
    compressors: &CompressorList,
    log: &mut Option<Logger>,
) -> Result<Vec<FoundTable<E, DefaultCmp>>> {
    let files = list_files(alloc, env, "db")?;
    found_tables(alloc, env, "db", DefaultCmp, &files, compressors, log)
}

/// The words of what is found of the tables, and how many tables are found.
fn found_words<E: Env>(
    rt: &impl Abort,
    alloc: Global,
    env: &mut E,
    compressors: &CompressorList,
    log: &mut Option<Logger>,
) -> Result<(Vec<String>, usize)> {
    let mut walks = walks_in(alloc, env, compressors, log)?;
    let mut files = ReadFiles {
        compressors,
        store: "db",
        below: 100,
    };
    let mut words = Vec::new(alloc);
    for walk in &mut walks {
        add_words(rt, alloc, env, &mut files, walk, &mut words)?;
    }
    Ok((words, walks.len()))
}

/// The words that are found by the compressor that stores blocks as they are, with a space before
/// each, and how many tables there are.
fn found<E: Env>(
    rt: &impl Abort,
    alloc: Global,
    env: &mut E,
    log: &mut Option<Logger>,
) -> Result<(String, usize)> {
    let (words, count) = found_words(rt, alloc, env, &CompressorList::default(), log)?;
    Ok((joined(alloc, &words)?, count))
}

// ---- by hand

/// Tables, and what is found of them.
const ROWS: &[(&[Table], &str, usize)] = &[
    (&[("000005.ldb", &[])], "", 1),
    (
        &[("000005.ldb", &[(b'a', 3, None), (b'a', 1, Some(b'v'))])],
        " 3a- 1a=v",
        1,
    ),
    // both spellings, and names that a store doesn't give
    (
        &[
            ("000005.ldb", &[(b'a', 1, Some(b'v'))]),
            ("000005.sst", &[(b'b', 2, Some(b'w'))]),
            ("5.ldb", &[(b'c', 3, None)]),
            ("0000000005.sst", &[(b'd', MAX_SEQUENCE_NUMBER, None)]),
        ],
        " 72057594037927935d- 1a=v 2b=w 3c-",
        4,
    ),
    // one entry in two tables
    (
        &[
            ("000005.ldb", &[(b'a', 1, Some(b'v'))]),
            (
                "000006.ldb",
                &[(b'a', 1, Some(b'v')), (b'b', 1, Some(b'v'))],
            ),
        ],
        " 1a=v 1a=v 1b=v",
        2,
    ),
    // no table: its name is of no store's file, or of another type
    (
        &[
            ("000005.dbtmp", &[(b'a', 1, None)]),
            ("000005.log", &[(b'a', 1, None)]),
            ("+5.ldb", &[(b'a', 1, None)]),
            ("MANIFEST-000005", &[(b'a', 1, None)]),
            ("000005.ldbs", &[(b'a', 1, None)]),
        ],
        "",
        0,
    ),
    // keys without a number of an entry
    (
        &[
            ("000005.ldb", &[(b'a', 1, None), (b'b', 0, None)]),
            ("000006.ldb", &[(b'c', 7, None)]),
        ],
        " 7c-",
        1,
    ),
];

#[test]
fn rows_by_hand(rt: HostRuntime) -> Result<()> {
    let alloc = rt.alloc();
    for (i, (tables, wanted, walks)) in ROWS.iter().enumerate() {
        let mut env = OnlyReads::of(MemEnv::new(alloc));
        put_tables(alloc, &mut env.env, tables)?;
        let (text, count) = found(&rt, alloc, &mut env, &mut None)?;
        assert!(rt;
            text.as_str() == *wanted && count == *walks,
            "row {i}: {count} tables, {text}"
        );
        assert!(rt; env.rule.refused == 0, "row {i}: a file was to change");
    }
    Ok(())
}

/// A file that is no readable table is a line, and no error.
#[test]
fn what_is_left_out_is_told(rt: HostRuntime) -> Result<()> {
    let alloc = rt.alloc();
    for (bytes, line) in [
        (
            b"".as_slice(),
            "db/000006.sst: 0 bytes are left out, which are no readable table\n",
        ),
        (
            b"no table",
            "db/000006.sst: 8 bytes are left out, which are no readable table\n",
        ),
        (
            &[0; 48],
            "db/000006.sst: 48 bytes are left out, which are no readable table\n",
        ),
    ] {
        let mut env = MemEnv::new(alloc);
        put_tables(alloc, &mut env, ROWS[1].0)?;
        put_file(alloc, &mut env, "000006.sst", bytes)?;
        let lines = Lines::new(alloc)?;
        let mut log = Some(lines.log(alloc, line)?);
        let (text, count) = found(&rt, alloc, &mut env, &mut log)?;
        assert!(rt; text.as_str() == ROWS[1].1 && count == 1, "{line}: {text}");
        assert!(rt; lines.are_right()?, "{line}: another line");
    }
    Ok(())
}

/// Each byte of a table raised by one: the other table is found, and this one as a plain reading
/// has it.
#[test]
fn each_byte_beside_a_plain_reading(rt: HostRuntime) -> Result<()> {
    let alloc = rt.alloc();
    let rows = [(b'a', 9, None), (b'b', 2, Some(b'v')), (b'c', 4, None)];
    let mut bytes = table_of(alloc, &small(), &rows)?;
    let mut both = 0;
    for at in 0..bytes.len() {
        change_byte(&mut bytes, at, 1);
        let mut env = MemEnv::new(alloc);
        put_tables(alloc, &mut env, ROWS[1].0)?;
        put_file(alloc, &mut env, "000006.ldb", &bytes)?;
        both += assert_found(&rt, alloc, &mut env, at)?.1 - 1;
        change_byte(&mut bytes, at, 255);
    }
    assert!(rt;
        both > 0 && both < bytes.len() / 2,
        "{both} bytes may be any"
    );
    Ok(())
}

// ---- compressors

/// The tables of a compressor are found with it. Without it they aren't passed over: that is an
/// error.
#[test]
fn tables_of_a_compressor(rt: HostRuntime) -> Result<()> {
    let alloc = rt.alloc();
    let mut options = small();
    options.compressor = 7;
    options
        .compressor_list
        .set_with_id(alloc, 7, Box::new(alloc, Raised)?)?;
    let mut env = MemEnv::new(alloc);
    put_tables(alloc, &mut env, ROWS[1].0)?;
    let bytes = table_of(alloc, &options, &[(b'r', 8, None)])?;
    put_file(alloc, &mut env, "000006.ldb", &bytes)?;
    let (words, count) = found_words(&rt, alloc, &mut env, &options.compressor_list, &mut None)?;
    assert!(rt; count == 2 && words.len() == 3);
    assert!(rt; words[2].as_str() == "8r-");
    let without = found(&rt, alloc, &mut env, &mut None);
    assert!(rt; failed_with(without, StatusCode::NotSupported)?);
    Ok(())
}

// ---- tables at random

/// The words of all entries of readable tables in the folder, sorted, and how many tables these
/// are.
fn slow_words<E: Env>(alloc: Global, env: &mut E) -> Result<(Vec<String>, usize)> {
    let (mut words, mut count) = (Vec::new(alloc), 0);
    for name in &env.children(alloc, "db")? {
        let Ok((_, FileType::Table)) = parse_file_name(alloc, name) else {
            continue;
        };
        let path = format!(in alloc; "db/{name}")?;
        let bytes = read_file(alloc, env, &path)?;
        let Some(pairs) = table_pairs(alloc, &DefaultCmp, &bytes)? else {
            continue;
        };
        if !pairs.iter().all(|pair| is_numbered(pair.0.as_slice())) {
            continue;
        }
        for pair in &pairs {
            words.push(pair_word(alloc, pair.0.as_slice(), pair.1.as_slice())?)?;
        }
        count += 1;
    }
    words.sort()?;
    Ok((words, count))
}

/// Whether a key has a type that there is and a sequence number from 1 on.
fn is_numbered(key: &[u8]) -> bool {
    match key.get(key.len().saturating_sub(8)..).unwrap_or_default() {
        [kind, number @ ..] => *kind < 2 && number.iter().any(|byte| *byte > 0),
        [] => false,
    }
}

/// Asserts that as much is found as a plain reading finds. Returns how many entries and tables.
fn assert_found<E: Env>(
    rt: &impl Abort,
    alloc: Global,
    env: &mut E,
    round: usize,
) -> Result<(usize, usize)> {
    let (slow, tables) = slow_words(alloc, env)?;
    let compressors = CompressorList::default();
    let (mut words, count) = found_words(rt, alloc, env, &compressors, &mut None)?;
    words.sort()?;
    assert!(rt; words == slow, "round {round}: other entries");
    assert!(rt; count == tables, "round {round}: {count} tables");
    Ok((slow.len(), tables))
}

/// A table of rows of random keys and numbers, of which one is 0 here and there.
fn random_table(alloc: Global, random: &mut Random) -> Result<Vec<u8>> {
    let mut rows: Vec<Row> = Vec::new(alloc);
    for letter in b'a'..b'a' + random.below(20) as u8 {
        let least = u64::from(random.below(60) > 0);
        for step in 0..random.below(3) {
            let value = if random.below(3) == 0 {
                None
            } else {
                Some(b'v')
            };
            rows.push((letter, least + (1 - step) * 100, value))?;
        }
    }
    table_of(alloc, &small(), &rows)
}

/// Puts one to four tables, cut, damaged or whole, under names that a store gives and others.
fn put_random<E: Env>(alloc: Global, random: &mut Random, env: &mut E) -> Result<()> {
    for number in 0..=random.below(4) {
        let mut bytes = random_table(alloc, random)?;
        let at = random.below(bytes.len() as u64 + 1) as usize;
        match random.below(6) {
            0 => bytes.truncate(at),
            1 => change_byte(&mut bytes, at, 1),
            _ => {}
        }
        let number = number / 2 + 7;
        let name = match random.below(3) {
            0 => format!(in alloc; "{number:06}.ldb")?,
            1 => format!(in alloc; "{number:06}.sst")?,
            _ => format!(in alloc; "{number}.ldb")?,
        };
        put_file(alloc, env, &name, &bytes)?;
    }
    Ok(())
}

#[test]
fn random_tables_beside_a_plain_reading(rt: HostRuntime) -> Result<()> {
    let alloc = rt.alloc();
    let (mut entries, mut tables) = (0, 0);
    for round in 0..80 {
        let mut env = MemEnv::new(alloc);
        put_random(alloc, &mut Random(round as u64), &mut env)?;
        let mut short = ShortReads::new(MemEnv::new(alloc));
        put_random(alloc, &mut Random(round as u64), &mut short.env)?;
        let (some, count) = assert_found(&rt, alloc, &mut env, round)?;
        assert!(rt; assert_found(&rt, alloc, &mut short, round)? == (some, count));
        entries += some;
        tables += count;
    }
    assert!(rt;
        entries > 500 && tables > 80,
        "{entries} entries, {tables} tables"
    );
    Ok(())
}

// ---- failures

const BESIDE: &[Table] = &[
    ("000005.ldb", &[(b'a', 5, None), (b'b', 2, Some(b'v'))]),
    ("000005.sst", &[(b'a', 0, None)]),
    ("000007.ldb", &[(b'c', 3, None)]),
];

/// Each call of the device fails once: so does the finding, and the next one finds all.
#[test]
fn each_failed_call_fails_it(rt: HostRuntime) -> Result<()> {
    let alloc = rt.alloc();
    let mut failures = 0;
    for call in 1..100 {
        let mut env = RecordEnv::new(alloc);
        put_tables(alloc, &mut env, BESIDE)?;
        env.fail(call, false);
        let first = walks_in(alloc, &mut env, &CompressorList::default(), &mut None);
        if first.is_ok() {
            break;
        }
        assert!(rt;
            failed_with(first, StatusCode::IOError)?,
            "call {call}: another error"
        );
        let (text, count) = found(&rt, alloc, &mut env, &mut None)?;
        assert!(rt;
            text.as_str() == " 5a- 2b=v 3c-" && count == 2,
            "call {call}: {text}"
        );
        failures += 1;
    }
    assert!(rt; failures > 20 && failures < 98, "{failures} failures");
    Ok(())
}

/// A table that is gone since the folder was listed.
#[test]
fn a_missing_table_is_corruption(rt: HostRuntime) -> Result<()> {
    let alloc = rt.alloc();
    let mut env = MemEnv::new(alloc);
    put_tables(alloc, &mut env, BESIDE)?;
    let files = list_files(alloc, &mut env, "db")?;
    env.delete("db/000007.ldb")?;
    let compressors = CompressorList::default();
    let none = found_tables(
        alloc,
        &mut env,
        "db",
        DefaultCmp,
        &files,
        &compressors,
        &mut None,
    );
    assert!(rt; failed_with(none, StatusCode::Corruption)?);
    Ok(())
}

//! The files of a store by levels: their order and sizes, which of them overlap a range, the level
//! of a new table, and the seeks that they take. Answers are written by hand, or found by trying.

use bytes::Bytes;
use leveldb_base::cmp::DefaultCmp;
use leveldb_base::error::Result;
use leveldb_base::key_types::LookupKey;
use leveldb_base::types::{FileMetaData, FileNum, NUM_LEVELS};
use leveldb_version::version::{GetStats, Version, total_size};
use leveldb_version::version_edit::VersionEdit;
use slow_store::{compaction_inputs, files_with_key, has_overlap, new_table_level};
use std::alloc::Global;
use std::process::Abort;

/// A file: its level, number and size, and its first and last user key.
pub type Row = (usize, FileNum, usize, &'static str, &'static str);

/// A store of four levels, its files in no order. In level 0 they overlap.
pub const STORE: [Row; 9] = [
    (3, 9, 200, "iaa", "iba"),
    (1, 4, 216, "daa", "dba"),
    (0, 2, 251, "aac", "bba"),
    (2, 7, 250, "gaa", "gda"),
    (1, 3, 218, "aaa", "cba"),
    (0, 1, 232, "aaa", "aba"),
    (1, 5, 217, "eaa", "fab"),
    (2, 6, 218, "cab", "fba"),
    (3, 8, 200, "haa", "hba"),
];

/// A store whose files of level 0 overlap in a chain, and are greater than 20 MiB below it.
const CHAIN: [Row; 8] = [
    (0, 11, 1, "h", "k"),
    (0, 12, 1, "b", "d"),
    (0, 13, 1, "c", "f"),
    (0, 14, 1, "f", "h"),
    (0, 15, 1, "m", "m"),
    (1, 16, 9, "", "a"),
    (2, 17, 20_971_520, "l", "o"),
    (3, 18, 20_971_521, "o", "t"),
];

/// A key of the first or the last entry of a file.
pub fn entry_key(alloc: Global, key: &str) -> Result<Bytes> {
    let key = LookupKey::new(alloc, key.as_bytes(), 30)?;
    Ok(Bytes::copy_from_slice(alloc, key.internal_key())?)
}

fn file_of(alloc: Global, row: &Row) -> Result<FileMetaData> {
    Ok(FileMetaData {
        allowed_seeks: 0,
        num: row.1,
        size: row.2,
        smallest: entry_key(alloc, row.3)?,
        largest: entry_key(alloc, row.4)?,
    })
}

fn files_of(alloc: Global, rows: &[Row]) -> Result<Vec<(usize, FileMetaData)>> {
    let mut files = Vec::new(alloc);
    for row in rows {
        files.push((row.0, file_of(alloc, row)?))?;
    }
    Ok(files)
}

pub fn version_of(alloc: Global, rows: &[Row]) -> Result<Version<DefaultCmp>> {
    let files = files_of(alloc, rows)?;
    Version::of_files(alloc, DefaultCmp, files.as_slice())
}

// ---- order and sizes

/// The numbers of a level's files, in their order.
fn numbers_in(alloc: Global, version: &Version<DefaultCmp>, level: usize) -> Result<Vec<FileNum>> {
    let mut numbers = Vec::new(alloc);
    for file in version.files(level) {
        numbers.push(file.1.num)?;
    }
    Ok(numbers)
}

#[test]
fn files_are_in_order(rt: HostRuntime) -> Result<()> {
    let version = version_of(rt.alloc(), &STORE)?;
    assert!(rt; numbers_in(rt.alloc(), &version, 0)?.as_slice() == [1, 2].as_slice());
    assert!(rt; numbers_in(rt.alloc(), &version, 1)?.as_slice() == [3, 4, 5].as_slice());
    assert!(rt; numbers_in(rt.alloc(), &version, 3)?.as_slice() == [8, 9].as_slice());
    assert!(rt; version.files(4).is_empty() && version.files(6).is_empty());
    Ok(())
}

#[test]
fn summary(rt: HostRuntime) -> Result<()> {
    let version = version_of(rt.alloc(), &STORE)?;
    let text = version.level_summary(rt.alloc())?;
    assert!(rt;
        text.as_str()
            == "level 0: 2 files, 483 bytes ([(1, 232), (2, 251)]); level 1: 3 files, 651 bytes ([(3, 218), (4, 216), (5, 217)]); level 2: 2 files, 468 bytes ([(6, 218), (7, 250)]); level 3: 2 files, 400 bytes ([(8, 200), (9, 200)]); "
    );
    Ok(())
}

#[test]
fn sizes(rt: HostRuntime) -> Result<()> {
    let version = version_of(rt.alloc(), &STORE)?;
    let bytes = [
        version.num_level_bytes(0),
        version.num_level_bytes(1),
        version.num_level_bytes(5),
    ];
    assert!(rt; bytes == [483, 651, 0]);
    let counts = [version.num_level_files(1), version.num_level_files(5)];
    assert!(rt; counts == [3, 0]);
    Ok(())
}

/// Sums stop at the greatest number.
#[test]
fn greatest_size(rt: HostRuntime) -> Result<()> {
    let rows: [Row; 2] = [(0, 1, usize::MAX, "a", "b"), (0, 2, 1, "a", "b")];
    let files = files_of(rt.alloc(), &rows)?;
    assert!(rt; total_size(files.as_slice()) == usize::MAX);
    assert!(rt; total_size(&[]) == 0);
    Ok(())
}

#[test]
fn no_files(rt: HostRuntime) -> Result<()> {
    let version = Version::new(rt.alloc(), DefaultCmp);
    assert!(rt; version.level_summary(rt.alloc())?.is_empty());
    assert!(rt; !version.overlap_in_level(0, b"", b"") && version.num_level_files(0) == 0);
    assert!(rt; version.pick_memtable_output_level(b"a", b"b") == 2);
    Ok(())
}

// ---- overlaps

/// Levels and ranges, and whether a file there overlaps the range.
const OVERLAPS: [(usize, &str, &str, bool); 8] = [
    (0, "000", "003", false),
    (0, "aa0", "abx", true),
    (1, "012", "013", false),
    (1, "abc", "def", true),
    (1, "dbb", "e", false),
    (2, "xxx", "xyz", false),
    (2, "gac", "gaz", true),
    (3, "", "", true),
];

fn assert_overlap(rt: &impl Abort, version: &Version<DefaultCmp>, row: &(usize, &str, &str, bool)) {
    let level = row.0;
    assert!(rt; level < NUM_LEVELS);
    let found = version.overlap_in_level(level, row.1.as_bytes(), row.2.as_bytes());
    assert!(rt; found == row.3);
}

#[test]
fn overlaps(rt: HostRuntime) -> Result<()> {
    let version = version_of(rt.alloc(), &STORE)?;
    for row in &OVERLAPS {
        assert_overlap(&rt, &version, row);
    }
    Ok(())
}

/// First and last keys of new tables, and the levels that they go to.
const LEVELS: [(&str, &str, usize); 5] = [
    ("000", "abc", 0),
    ("gab", "hhh", 1),
    ("000", "111", 2),
    ("bbb", "bbc", 0),
    ("z", "z", 2),
];

#[test]
fn levels_of_new_tables(rt: HostRuntime) -> Result<()> {
    let version = version_of(rt.alloc(), &STORE)?;
    for (first, last, level) in &LEVELS {
        let found = version.pick_memtable_output_level(first.as_bytes(), last.as_bytes());
        assert!(rt; found == *level);
    }
    Ok(())
}

/// A new table may overlap 20 MiB two levels down, and not a byte more.
#[test]
fn many_bytes_two_levels_down(rt: HostRuntime) -> Result<()> {
    let version = version_of(rt.alloc(), &CHAIN)?;
    assert!(rt; version.pick_memtable_output_level(b"n", b"n") == 1);
    assert!(rt; version.pick_memtable_output_level(b"p", b"q") == 1);
    assert!(rt; version.pick_memtable_output_level(b"u", b"v") == 2);
    Ok(())
}

/// The numbers of the files that a compaction of a level takes, in rising order.
fn inputs_of(
    alloc: Global,
    version: &Version<DefaultCmp>,
    level: usize,
    begin: &str,
    end: &str,
) -> Result<Vec<FileNum>> {
    let begin = LookupKey::new(alloc, begin.as_bytes(), 1000)?;
    let end = LookupKey::new(alloc, end.as_bytes(), 1010)?;
    let files = version.overlapping_inputs(alloc, level, begin.internal_key(), end.internal_key())?;
    let mut numbers = Vec::new(alloc);
    for file in &files {
        numbers.push(file.1.num)?;
    }
    numbers.sort()?;
    Ok(numbers)
}

/// Ranges of level 0 are widened until no file sticks out.
#[test]
fn inputs_of_level_zero(rt: HostRuntime) -> Result<()> {
    let store = version_of(rt.alloc(), &STORE)?;
    let both = inputs_of(rt.alloc(), &store, 0, "000", "ab")?;
    assert!(rt; both.as_slice() == [1, 2].as_slice());
    assert!(rt; inputs_of(rt.alloc(), &store, 0, "c", "d")?.is_empty());
    let chain = version_of(rt.alloc(), &CHAIN)?;
    let four = inputs_of(rt.alloc(), &chain, 0, "b", "b")?;
    assert!(rt; four.as_slice() == [11, 12, 13, 14].as_slice());
    let one = inputs_of(rt.alloc(), &chain, 0, "l", "")?;
    assert!(rt; one.as_slice() == [15].as_slice());
    Ok(())
}

/// Ranges of the other levels aren't.
#[test]
fn inputs_of_other_levels(rt: HostRuntime) -> Result<()> {
    let store = version_of(rt.alloc(), &STORE)?;
    let first = inputs_of(rt.alloc(), &store, 1, "aaa", "bba")?;
    assert!(rt; first.as_slice() == [3].as_slice());
    let two = inputs_of(rt.alloc(), &store, 1, "cba", "daa")?;
    assert!(rt; two.as_slice() == [3, 4].as_slice());
    let all = inputs_of(rt.alloc(), &store, 2, "", "")?;
    assert!(rt; all.as_slice() == [6, 7].as_slice());
    Ok(())
}

// ---- what trying finds

/// Keys at, beside and between the ends of files, and the empty key.
const KEYS: [&str; 13] = [
    "", "aaa", "aab", "aba", "bba", "c", "cba", "d", "f", "gda", "h", "m", "o",
];

fn assert_same_inputs(
    rt: &(impl Abort + AllocGlobal),
    version: &Version<DefaultCmp>,
    files: &[(usize, FileMetaData)],
    level: usize,
    begin: &str,
    end: &str,
) -> Result<()> {
    let found = inputs_of(rt.alloc(), version, level, begin, end)?;
    let (first, last) = (begin.as_bytes(), end.as_bytes());
    let tried = compaction_inputs(rt.alloc(), &DefaultCmp, files, level, first, last)?;
    assert!(rt; found.as_slice() == tried.as_slice());
    let overlaps = has_overlap(&DefaultCmp, files, level, first, last);
    assert!(rt; version.overlap_in_level(level, first, last) == overlaps);
    Ok(())
}

fn assert_same_range(
    rt: &(impl Abort + AllocGlobal),
    version: &Version<DefaultCmp>,
    files: &[(usize, FileMetaData)],
    begin: &str,
    end: &str,
) -> Result<()> {
    for level in 0..4 {
        assert_same_inputs(rt, version, files, level, begin, end)?;
    }
    let (first, last) = (begin.as_bytes(), end.as_bytes());
    let level = new_table_level(&DefaultCmp, files, first, last);
    assert!(rt; version.pick_memtable_output_level(first, last) == level);
    Ok(())
}

fn assert_same_key(
    rt: &(impl Abort + AllocGlobal),
    version: &Version<DefaultCmp>,
    files: &[(usize, FileMetaData)],
    level: usize,
    key: &str,
) -> Result<()> {
    let tried = files_with_key(rt.alloc(), &DefaultCmp, files, level, key.as_bytes())?;
    let found = version
        .file_for(level, key.as_bytes())
        .map(|file| file.1.num);
    assert!(rt; found == tried.first().copied() && tried.len() < 2);
    Ok(())
}

/// All ranges that begin with a key, and the key alone.
fn assert_same_from(
    rt: &(impl Abort + AllocGlobal),
    version: &Version<DefaultCmp>,
    files: &[(usize, FileMetaData)],
    begin: &str,
) -> Result<()> {
    for end in &KEYS {
        assert_same_range(rt, version, files, begin, end)?;
    }
    for level in 1..4 {
        assert_same_key(rt, version, files, level, begin)?;
    }
    Ok(())
}

/// All calls on a range or a key find what trying finds.
fn assert_same(rt: &(impl Abort + AllocGlobal), rows: &[Row]) -> Result<()> {
    let files = files_of(rt.alloc(), rows)?;
    let version = Version::of_files(rt.alloc(), DefaultCmp, files.as_slice())?;
    for begin in &KEYS {
        assert_same_from(rt, &version, files.as_slice(), begin)?;
    }
    Ok(())
}

#[test]
fn store_as_tried(rt: HostRuntime) -> Result<()> {
    assert_same(&rt, &STORE)
}

#[test]
fn chain_as_tried(rt: HostRuntime) -> Result<()> {
    assert_same(&rt, &CHAIN)
}

// ---- seeks

/// A charge of this file.
fn charge(level: usize, number: FileNum) -> GetStats {
    GetStats {
        file: Some((level, number)),
    }
}

/// How many seeks the files of a level may take.
fn seeks_in(alloc: Global, version: &Version<DefaultCmp>, level: usize) -> Result<Vec<usize>> {
    let mut seeks = Vec::new(alloc);
    for file in version.files(level) {
        seeks.push(file.1.allowed_seeks)?;
    }
    Ok(seeks)
}

/// Files of level 1, whose sizes are small, just below and at a hundred times 16 KiB, and past it.
const SIZES: [Row; 4] = [
    (1, 1, 0, "a", "b"),
    (1, 2, 1_638_399, "c", "d"),
    (1, 3, 1_638_400, "e", "f"),
    (1, 4, 1_654_784, "g", "h"),
];

#[test]
fn first_seeks(rt: HostRuntime) -> Result<()> {
    let version = version_of(rt.alloc(), &SIZES)?;
    let seeks = seeks_in(rt.alloc(), &version, 1)?;
    assert!(rt; seeks.as_slice() == [100, 100, 100, 101].as_slice());
    Ok(())
}

/// A file that is charged so often isn't chosen by that.
fn assert_unchosen(
    rt: &impl Abort,
    version: &mut Version<DefaultCmp>,
    file: GetStats,
    times: usize,
) {
    for _ in 0..times {
        assert!(rt; !version.update_stats(file));
    }
}

/// The hundredth charge of a small file chooses it, and no other is chosen then. The seeks that are
/// left and the choice stay after an edit that adds a file.
#[test]
fn charged_files(rt: HostRuntime) -> Result<()> {
    let mut version = version_of(rt.alloc(), &STORE)?;
    assert_unchosen(&rt, &mut version, GetStats { file: None }, 1);
    assert_unchosen(&rt, &mut version, charge(1, 4), 99);
    assert_unchosen(&rt, &mut version, charge(1, 5), 98);
    assert!(rt; version.file_to_compact().is_none() && version.update_stats(charge(1, 4)));
    assert_unchosen(&rt, &mut version, charge(1, 5), 3);
    let mut edit = VersionEdit::new(rt.alloc());
    edit.add_file(1, file_of(rt.alloc(), &(1, 20, 1_654_784, "pa", "pb"))?)?;
    let next = version.with_edit(rt.alloc(), &edit)?;
    assert!(rt; next.file_to_compact() == Some((1, 4)));
    let seeks = seeks_in(rt.alloc(), &next, 1)?;
    assert!(rt; seeks.as_slice() == [100, 1, 0, 101].as_slice());
    Ok(())
}

/// A charge of a file that isn't there changes nothing.
#[test]
fn charge_of_no_file(rt: HostRuntime) -> Result<()> {
    let mut version = version_of(rt.alloc(), &STORE)?;
    assert_unchosen(&rt, &mut version, charge(2, 4), 101);
    assert!(rt; version.file_to_compact().is_none());
    Ok(())
}

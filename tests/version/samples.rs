//! Which file a sample of the keys that are read charges with a seek.

use super::choices::{NUMBER, Row, key_at, row, version_of};
use super::random_choices::{GREATEST, random_rows};
use leveldb_base::cmp::DefaultCmp;
use leveldb_base::error::Result;
use leveldb_base::types::FileNum;
use leveldb_version::version::{GetStats, Version};
use std::alloc::Global;
use std::process::Abort;
use support::Random;

/// Whether a look-up tries the first file before the second.
fn is_tried_before(a: &Row, b: &Row) -> bool {
    a.level < b.level || (a.level == 0 && b.level == 0 && a.num > b.num)
}

/// The file with the key in its range before which none is tried, if there are two or more.
fn charged(rows: &[Row], user: u8) -> Option<(usize, FileNum)> {
    let mut count = 0;
    let mut first: Option<Row> = None;
    for row in rows {
        if row.first <= user && user <= row.last {
            count += 1;
            if first.is_none_or(|other| is_tried_before(row, &other)) {
                first = Some(*row);
            }
        }
    }
    let first = first?;
    if count > 1 {
        Some((first.level, first.num))
    } else {
        None
    }
}

/// Whether two versions have the same files, with the same seeks, and the same choice.
fn are_same(a: &Version<DefaultCmp>, b: &Version<DefaultCmp>) -> bool {
    (0..7).all(|level| a.files(level) == b.files(level))
        && a.file_to_compact() == b.file_to_compact()
}

/// Samples a key, and compares the version with one whose file is charged.
fn check_sample(
    rt: &impl Abort,
    alloc: Global,
    version: &mut Version<DefaultCmp>,
    user: u8,
    file: Option<(usize, FileNum)>,
) -> Result<()> {
    let mut other = version.copy(alloc)?;
    let key = key_at(alloc, user, NUMBER)?;
    assert!(rt; version.sampled(&key[..key.len() - 8]) == file);
    let chosen = version.record_read_sample(&key);
    assert!(rt; other.update_stats(GetStats { file }) == chosen);
    assert!(rt; are_same(version, &other));
    Ok(())
}

/// Of 60 versions at random, each key charges the file that is found by trying.
#[test]
fn samples_as_tried(rt: HostRuntime) -> Result<()> {
    let mut random = Random(42);
    let mut seen = 0;
    for _ in 0..60 {
        let rows = random_rows(rt.alloc(), &mut random)?;
        let mut version = version_of(rt.alloc(), rows.as_slice())?;
        for user in 0..GREATEST + 9 {
            let file = charged(rows.as_slice(), user);
            check_sample(&rt, rt.alloc(), &mut version, user, file)?;
            seen += file.is_some() as usize;
        }
    }
    assert!(rt; seen > 300);
    Ok(())
}

/// The newest file of level 0 is charged, and none where a key is in one file alone; the seek with
/// which the last one is taken chooses the file.
#[test]
fn newest_file_is_charged(rt: HostRuntime) -> Result<()> {
    let rows = [
        row(0, 4, 1, 10, 30),
        row(0, 7, 1, 20, 40),
        row(1, 3, 1, 35, 50),
        row(2, 1, 1, 45, 60),
    ];
    let mut version = version_of(rt.alloc(), &rows)?;
    for (user, file) in [
        (9, None),
        (10, None),
        (20, Some((0, 7))),
        (31, None),
        (35, Some((0, 7))),
        (41, None),
        (45, Some((1, 3))),
        (51, None),
        (60, None),
        (61, None),
    ] {
        check_sample(&rt, rt.alloc(), &mut version, user, file)?;
    }
    let key = key_at(rt.alloc(), 45, NUMBER)?;
    for _ in 0..98 {
        assert!(rt; !version.record_read_sample(&key));
    }
    assert!(rt; version.record_read_sample(&key));
    assert!(rt; version.file_to_compact() == Some((1, 3)));
    Ok(())
}

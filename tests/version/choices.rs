//! Which compaction a version asks for, and which files it takes: rows by hand at both sides of
//! each limit, and thousands of small versions at random, beside a chooser that tries all.

use bytes::Bytes;
use leveldb_base::cmp::DefaultCmp;
use leveldb_base::error::Result;
use leveldb_base::key_types::LookupKey;
use leveldb_base::types::{FileMetaData, FileNum};
use leveldb_version::version::{GetStats, Version};
use leveldb_version::version_edit::{CompactionPointer, VersionEdit};
use leveldb_version_set::compaction::Compaction;
use leveldb_version_set::compaction::pick::{compact_range, needs_compaction, pick_compaction};
use std::alloc::Global;
use std::process::Abort;

const MIB: usize = 1 << 20;

/// A file: its level, number and size, and its first and last user key. The key 0 is the empty one,
/// and each other one has one byte.
#[derive(Clone, Copy, Debug, PartialEq)]
pub struct Row {
    pub level: usize,
    pub num: FileNum,
    pub size: usize,
    pub first: u8,
    pub last: u8,
}

pub fn row(level: usize, num: FileNum, size: usize, first: u8, last: u8) -> Row {
    Row {
        level,
        num,
        size,
        first,
        last,
    }
}

/// The internal key of this user key and number.
pub fn key_at(alloc: Global, user: u8, number: u64) -> Result<Bytes> {
    let bytes = [user];
    let user = if user == 0 { &bytes[..0] } else { &bytes[..] };
    let key = LookupKey::new(alloc, user, number)?;
    Ok(Bytes::copy_from_slice(alloc, key.internal_key())?)
}

/// The number of each entry that is the first or the last one of a file.
pub const NUMBER: u64 = 30;

pub fn file_of(alloc: Global, row: &Row) -> Result<FileMetaData> {
    Ok(FileMetaData {
        allowed_seeks: 0,
        num: row.num,
        size: row.size,
        smallest: key_at(alloc, row.first, NUMBER)?,
        largest: key_at(alloc, row.last, NUMBER)?,
    })
}

pub fn version_of(alloc: Global, rows: &[Row]) -> Result<Version<DefaultCmp>> {
    let mut files = Vec::new(alloc);
    for row in rows {
        files.push((row.level, file_of(alloc, row)?))?;
    }
    Version::of_files(alloc, DefaultCmp, files.as_slice())
}

/// The pointer of a level.
pub fn pointer(alloc: Global, level: usize, user: u8, number: u64) -> Result<CompactionPointer> {
    Ok(CompactionPointer {
        level,
        key: key_at(alloc, user, number)?,
    })
}

/// The numbers of the files that a compaction takes of its level, or of the next, in order.
pub fn taken(
    alloc: Global,
    compaction: &Compaction<DefaultCmp>,
    parent: usize,
) -> Result<Vec<FileNum>> {
    let mut numbers = Vec::new(alloc);
    for index in 0..compaction.num_inputs(parent) {
        match compaction.input(parent, index) {
            Some(file) => numbers.push(file.1.num)?,
            None => return Ok(Vec::new(alloc)),
        }
    }
    numbers.sort()?;
    Ok(numbers)
}

/// Fails a test that has no compaction.
pub fn missing(rt: &impl Abort) -> Result<()> {
    assert!(rt; false);
    Ok(())
}

/// Whether a compaction is one of this level that takes these files.
fn takes(
    alloc: Global,
    compaction: &Option<Compaction<DefaultCmp>>,
    level: usize,
    of_level: &[FileNum],
    of_next: &[FileNum],
) -> Result<bool> {
    let Some(compaction) = compaction else {
        return Ok(false);
    };
    Ok(
        compaction.level() == level
            && taken(alloc, compaction, 0)?.as_slice() == of_level
            && taken(alloc, compaction, 1)?.as_slice() == of_next,
    )
}

/// The compaction for which these files ask, where the level has no pointer.
fn asked(alloc: Global, rows: &[Row], size: usize) -> Result<Option<Compaction<DefaultCmp>>> {
    pick_compaction(alloc, &version_of(alloc, rows)?, &[], size)
}

/// The compaction of a range of a level, between two user keys.
fn ranged(
    alloc: Global,
    rows: &[Row],
    level: usize,
    first: u8,
    last: u8,
    size: usize,
) -> Result<Option<Compaction<DefaultCmp>>> {
    let version = version_of(alloc, rows)?;
    let begin = key_at(alloc, first, 1000)?;
    let end = key_at(alloc, last, 1000)?;
    compact_range(alloc, &version, level, &begin, &end, size)
}

// ---- scores

/// So many files of level 0, which have a key each.
fn zeros(alloc: Global, count: u8) -> Result<Vec<Row>> {
    let mut rows = Vec::new(alloc);
    for at in 0..count {
        rows.push(row(0, u64::from(at) + 1, 1, at + 1, at + 1))?;
    }
    Ok(rows)
}

/// Four files of level 0 ask, and three don't. So do 10 MiB in level 1, and a byte fewer doesn't;
/// in each next level it is ten times as much. Level 6 never asks.
#[test]
fn limits_of_levels(rt: HostRuntime) -> Result<()> {
    let alloc = rt.alloc();
    for (count, level) in [(3, None), (4, Some(0)), (5, Some(0))] {
        let version = version_of(alloc, zeros(alloc, count)?.as_slice())?;
        assert!(rt; version.level_by_score() == level);
        assert!(rt; needs_compaction(&version) == level.is_some());
    }
    let mut limit = 10 * MIB;
    for level in 1..6 {
        for (size, asks) in [(limit - 1, None), (limit, Some(level))] {
            let version = version_of(alloc, &[row(level, 9, size, 1, 2)])?;
            assert!(rt; version.level_by_score() == asks);
            assert!(rt; needs_compaction(&version) == asks.is_some());
        }
        limit *= 10;
    }
    let version = version_of(alloc, &[row(6, 9, 1 << 60, 1, 2)])?;
    assert!(rt; version.level_by_score().is_none() && !needs_compaction(&version));
    assert!(rt; asked(alloc, &[row(6, 9, 1 << 60, 1, 2)], MIB)?.is_none());
    assert!(rt; asked(alloc, &[], MIB)?.is_none());
    Ok(())
}

/// Of two levels the one of greater score asks, and of equal scores the first: four files of level
/// 0 are as much as 10 MiB of level 1, and five are as much as 12.5 MiB.
#[test]
fn first_greatest_score(rt: HostRuntime) -> Result<()> {
    let alloc = rt.alloc();
    for (count, size, level) in [
        (4, 10 * MIB, 0),
        (4, 10 * MIB + 1, 1),
        (5, 10 * MIB + 1, 0),
        (5, 25 * MIB / 2, 0),
        (5, 25 * MIB / 2 + 1, 1),
    ] {
        let mut rows = zeros(alloc, count)?;
        rows.push(row(1, 90, size, 100, 101))?;
        let version = version_of(alloc, rows.as_slice())?;
        assert!(rt; version.level_by_score() == Some(level));
    }
    let rows = [
        row(1, 1, 30 * MIB, 1, 2),
        row(2, 2, 300 * MIB, 1, 2),
        row(3, 3, 3000 * MIB + 1, 1, 2),
        row(4, 4, 30_000 * MIB, 1, 2),
    ];
    assert!(rt; version_of(alloc, &rows)?.level_by_score() == Some(3));
    assert!(rt; version_of(alloc, &rows[..2])?.level_by_score() == Some(1));
    Ok(())
}

// ---- by score

/// Three files of level 1.
fn three() -> [Row; 3] {
    [
        row(1, 1, 4 * MIB, 10, 20),
        row(1, 2, 4 * MIB, 30, 40),
        row(1, 3, 4 * MIB, 50, 60),
    ]
}

/// The first file that ends after the level's pointer is taken, where internal keys are compared;
/// the first one, where there is none. A pointer of fewer than eight bytes counts as none, and
/// those of other levels don't count.
#[test]
fn after_the_pointer(rt: HostRuntime) -> Result<()> {
    let alloc = rt.alloc();
    let version = version_of(alloc, &three())?;
    for (user, number, file) in [
        (1, 1, 1),
        (19, 1, 1),
        (20, NUMBER + 1, 1),
        (20, NUMBER, 2),
        (20, 1, 2),
        (40, 1, 3),
        (59, 1, 3),
        (60, 1, 1),
        (99, 1, 1),
    ] {
        let pointers = [
            pointer(alloc, 0, 45, 1)?,
            pointer(alloc, 1, user, number)?,
            pointer(alloc, 2, 45, 1)?,
        ];
        let picked = pick_compaction(alloc, &version, &pointers, MIB)?;
        assert!(rt; takes(alloc, &picked, 1, &[file], &[])?);
    }
    let short = [CompactionPointer {
        level: 1,
        key: Bytes::copy_from_slice(alloc, &[45, 1, 1, 0, 0, 0, 0])?,
    }];
    let picked = pick_compaction(alloc, &version, &short, MIB)?;
    assert!(rt; takes(alloc, &picked, 1, &[1], &[])?);
    let eight = [CompactionPointer {
        level: 1,
        key: Bytes::copy_from_slice(alloc, &[1, 1, 0, 0, 0, 0, 0, 0])?,
    }];
    let picked = pick_compaction(alloc, &version, &eight, MIB)?;
    assert!(rt; takes(alloc, &picked, 1, &[1], &[])?);
    Ok(())
}

/// Of two pointers of a level the last counts.
#[test]
fn last_pointer(rt: HostRuntime) -> Result<()> {
    let alloc = rt.alloc();
    let pointers = [pointer(alloc, 1, 45, 1)?, pointer(alloc, 1, 25, 1)?];
    let picked = pick_compaction(alloc, &version_of(alloc, &three())?, &pointers, MIB)?;
    assert!(rt; takes(alloc, &picked, 1, &[2], &[])?);
    Ok(())
}

/// In level 0 all files are taken that overlap the file, and those that overlap them, and so on.
/// The next level's are those that overlap the whole range.
#[test]
fn level_zero_is_widened(rt: HostRuntime) -> Result<()> {
    let alloc = rt.alloc();
    let rows = [
        row(0, 1, 1, 30, 40),
        row(0, 2, 1, 40, 50),
        row(0, 3, 1, 20, 31),
        row(0, 4, 1, 60, 70),
        row(1, 5, 1, 10, 19),
        row(1, 6, 1, 20, 20),
        row(1, 7, 1, 50, 60),
        row(1, 8, 1, 61, 62),
    ];
    assert!(rt; takes(alloc, &asked(alloc, &rows, MIB)?, 0, &[1, 2, 3], &[6, 7])?);
    Ok(())
}

/// A file of level 0 whose only key is the empty one takes no other file with it: its own range
/// isn't open.
#[test]
fn empty_key_alone(rt: HostRuntime) -> Result<()> {
    let alloc = rt.alloc();
    let rows = [
        row(0, 1, 1, 0, 0),
        row(0, 2, 1, 10, 20),
        row(0, 3, 1, 15, 30),
        row(0, 4, 1, 40, 50),
        row(1, 5, 1, 0, 0),
        row(1, 6, 1, 12, 13),
    ];
    assert!(rt; takes(alloc, &asked(alloc, &rows, MIB)?, 0, &[1], &[5])?);
    assert!(rt;
        takes(
            alloc,
            &ranged(alloc, &rows, 0, 0, 0, MIB)?,
            0,
            &[1, 2, 3, 4],
            &[5, 6]
        )?
    );
    Ok(())
}

/// The edit sets the level's pointer to the end of the files that are taken of it, and deletes all
/// that are taken once that is asked for.
#[test]
fn edit_of_a_compaction(rt: HostRuntime) -> Result<()> {
    let alloc = rt.alloc();
    let rows = [
        row(1, 1, 6 * MIB, 10, 20),
        row(1, 2, 6 * MIB, 30, 40),
        row(2, 3, MIB, 15, 17),
        row(2, 4, MIB, 20, 45),
        row(2, 5, MIB, 46, 47),
    ];
    let Some(mut compaction) = asked(alloc, &rows, MIB)? else {
        return missing(&rt);
    };
    assert!(rt; taken(alloc, &compaction, 0)?.as_slice() == [1, 2].as_slice());
    assert!(rt; taken(alloc, &compaction, 1)?.as_slice() == [3, 4].as_slice());
    assert!(rt; compaction.edit().deleted.is_empty());
    compaction.add_input_deletions()?;
    let edit = compaction.into_edit();
    assert!(rt; edit.compaction_ptrs.as_slice() == [pointer(alloc, 1, 40, NUMBER)?].as_slice());
    assert!(rt; edit.deleted.len() == 4);
    for at in [(1, 1), (1, 2), (2, 3), (2, 4)] {
        assert!(rt; edit.deleted.contains(&at));
    }
    assert!(rt; edit.new_files.is_empty() && edit.log_number.is_none());
    Ok(())
}

// ---- by reads

/// Chooses the file of this level and number by the seeks that it may take.
pub fn read_often(rt: &impl Abort, at: (usize, FileNum), mut charge: impl FnMut(GetStats) -> bool) {
    let stats = GetStats { file: Some(at) };
    for _ in 0..1000 {
        if charge(stats) {
            return;
        }
    }
    assert!(rt; false);
}

fn read_version(rt: &impl Abort, version: &mut Version<DefaultCmp>, level: usize, num: FileNum) {
    read_often(rt, (level, num), |stats| version.update_stats(stats));
}

/// The file that reads have chosen is taken where no level asks by its score, as long as it is in
/// its level. An edit that moves it away ends that, and one of level 6 is never taken.
#[test]
fn chosen_by_reads(rt: HostRuntime) -> Result<()> {
    let alloc = rt.alloc();
    let rows = [
        row(0, 1, 1, 10, 20),
        row(0, 2, 1, 15, 16),
        row(1, 3, 1, 10, 12),
        row(1, 4, 1, 21, 22),
        row(6, 5, 1, 1, 99),
    ];
    let mut version = version_of(alloc, &rows)?;
    assert!(rt; !needs_compaction(&version));
    read_version(&rt, &mut version, 1, 4);
    assert!(rt; needs_compaction(&version));
    let picked = pick_compaction(alloc, &version, &[], MIB)?;
    assert!(rt; takes(alloc, &picked, 1, &[4], &[])?);

    let mut edit = VersionEdit::new(alloc);
    edit.delete_file(1, 3)?;
    let mut version = version.with_edit(alloc, &edit)?;
    assert!(rt; needs_compaction(&version));
    edit.delete_file(1, 4)?;
    version = version.with_edit(alloc, &edit)?;
    assert!(rt; !needs_compaction(&version));
    assert!(rt; pick_compaction(alloc, &version, &[], MIB)?.is_none());

    read_version(&rt, &mut version, 6, 5);
    assert!(rt; !needs_compaction(&version));
    assert!(rt; pick_compaction(alloc, &version, &[], MIB)?.is_none());

    let mut version = version_of(alloc, &rows)?;
    read_version(&rt, &mut version, 0, 2);
    let picked = pick_compaction(alloc, &version, &[], MIB)?;
    assert!(rt; takes(alloc, &picked, 0, &[1, 2], &[3])?);
    Ok(())
}

/// Where a level asks by its score, that goes before what reads have chosen.
#[test]
fn score_before_reads(rt: HostRuntime) -> Result<()> {
    let alloc = rt.alloc();
    let mut version = version_of(alloc, &three())?;
    read_version(&rt, &mut version, 1, 3);
    let picked = pick_compaction(alloc, &version, &[], MIB)?;
    assert!(rt; takes(alloc, &picked, 1, &[1], &[])?);
    Ok(())
}

// ---- growth

/// Two files of level 1 over one of level 2, and what else level 2 has.
fn growing(extra: Row) -> [Row; 4] {
    [
        row(1, 1, 5 * MIB, 10, 20),
        row(1, 2, 5 * MIB, 30, 40),
        row(2, 3, 15 * MIB, 15, 35),
        extra,
    ]
}

/// More files of the level are taken where that costs no more of the next, and both have fewer
/// bytes than 25 files may: 25 MiB are too many for files of 1 MiB, and not for files of a byte
/// more.
#[test]
fn growth(rt: HostRuntime) -> Result<()> {
    let alloc = rt.alloc();
    let rows = growing(row(2, 4, MIB, 90, 95));
    assert!(rt; takes(alloc, &asked(alloc, &rows, MIB)?, 1, &[1], &[3])?);
    assert!(rt; takes(alloc, &asked(alloc, &rows, MIB + 1)?, 1, &[1, 2], &[3])?);

    let costly = growing(row(2, 4, MIB, 40, 41));
    assert!(rt; takes(alloc, &asked(alloc, &costly, 8 * MIB)?, 1, &[1], &[3])?);
    Ok(())
}

/// A compaction that takes no file of the next level doesn't grow.
#[test]
fn none_of_the_next_level(rt: HostRuntime) -> Result<()> {
    let alloc = rt.alloc();
    let rows = [row(1, 1, 5 * MIB, 10, 20), row(1, 2, 5 * MIB, 30, 40)];
    assert!(rt; takes(alloc, &asked(alloc, &rows, 9 * MIB)?, 1, &[1], &[])?);
    Ok(())
}

// ---- ranges

/// From level 1 on the files of a range are cut after the one with which they have more bytes than
/// a file may, and one is taken at least. Keys at the ends are in the range; the empty one is open.
#[test]
fn ranges_are_cut(rt: HostRuntime) -> Result<()> {
    let alloc = rt.alloc();
    for (size, files) in [
        (4 * MIB - 1, &[1][..]),
        (4 * MIB, &[1, 2][..]),
        (8 * MIB - 1, &[1, 2][..]),
        (8 * MIB, &[1, 2, 3][..]),
        (1, &[1][..]),
        (99 * MIB, &[1, 2, 3][..]),
    ] {
        assert!(rt;
            takes(
                alloc,
                &ranged(alloc, &three(), 1, 0, 0, size)?,
                1,
                files,
                &[]
            )?
        );
    }
    let all = 99 * MIB;
    assert!(rt;
        takes(
            alloc,
            &ranged(alloc, &three(), 1, 20, 30, all)?,
            1,
            &[1, 2],
            &[]
        )?
    );
    assert!(rt;
        takes(
            alloc,
            &ranged(alloc, &three(), 1, 21, 0, all)?,
            1,
            &[2, 3],
            &[]
        )?
    );
    assert!(rt;
        takes(
            alloc,
            &ranged(alloc, &three(), 1, 0, 49, all)?,
            1,
            &[1, 2],
            &[]
        )?
    );
    assert!(rt; ranged(alloc, &three(), 1, 21, 29, all)?.is_none());
    assert!(rt; ranged(alloc, &three(), 1, 40, 20, all)?.is_none());
    assert!(rt; ranged(alloc, &three(), 2, 0, 0, all)?.is_none());
    Ok(())
}

/// Files of level 0 aren't cut, and one that a range asks for is never only moved.
#[test]
fn range_of_level_zero(rt: HostRuntime) -> Result<()> {
    let alloc = rt.alloc();
    let rows = [
        row(0, 1, MIB, 10, 20),
        row(0, 2, MIB, 20, 30),
        row(0, 3, MIB, 31, 40),
    ];
    assert!(rt; takes(alloc, &ranged(alloc, &rows, 0, 15, 15, 1)?, 0, &[1, 2], &[])?);
    let Some(one) = ranged(alloc, &rows, 0, 35, 35, MIB)? else {
        return missing(&rt);
    };
    assert!(rt; taken(alloc, &one, 0)?.as_slice() == [3].as_slice());
    assert!(rt; !one.is_trivial_move());
    Ok(())
}

// ---- moves, cuts and deeper levels

/// A compaction only moves its one file where it takes none of the next level, and what overlaps
/// the file two levels down has fewer bytes than ten files may.
#[test]
fn trivial_moves(rt: HostRuntime) -> Result<()> {
    let alloc = rt.alloc();
    for (rows, moves) in [
        (
            [row(1, 1, 10 * MIB, 10, 20), row(3, 2, 10 * MIB - 1, 15, 15)],
            true,
        ),
        (
            [row(1, 1, 10 * MIB, 10, 20), row(3, 2, 10 * MIB, 15, 15)],
            false,
        ),
        (
            [row(1, 1, 10 * MIB, 10, 20), row(3, 2, 10 * MIB, 20, 30)],
            false,
        ),
        (
            [row(1, 1, 10 * MIB, 10, 20), row(3, 2, 10 * MIB, 21, 30)],
            true,
        ),
        ([row(1, 1, 10 * MIB, 10, 20), row(2, 2, 1, 20, 30)], false),
        ([row(1, 1, 10 * MIB, 10, 20), row(2, 2, 1, 21, 30)], true),
        (
            [row(1, 1, 10 * MIB, 10, 20), row(4, 2, 90 * MIB, 15, 15)],
            true,
        ),
        (
            [row(5, 1, 200_000 * MIB, 10, 20), row(4, 2, MIB, 15, 15)],
            true,
        ),
    ] {
        let Some(compaction) = asked(alloc, &rows, MIB)? else {
            return missing(&rt);
        };
        assert!(rt; compaction.is_trivial_move() == moves);
    }
    Ok(())
}

/// An output is to end before the key with which it has passed more than ten file sizes two levels
/// down, and counting begins anew then. What the first key has passed isn't counted.
#[test]
fn cuts_two_levels_down(rt: HostRuntime) -> Result<()> {
    let alloc = rt.alloc();
    let rows = [
        row(1, 1, 10 * MIB, 10, 90),
        row(3, 2, 99 * MIB, 1, 5),
        row(3, 3, 6 * MIB, 11, 20),
        row(3, 4, 4 * MIB, 21, 30),
        row(3, 5, 1, 31, 40),
        row(3, 6, 10 * MIB + 1, 41, 50),
    ];
    let Some(mut compaction) = asked(alloc, &rows, MIB)? else {
        return missing(&rt);
    };
    for (user, stops) in [
        (10, false),
        (20, false),
        (21, false),
        (31, false),
        (40, false),
        (41, true),
        (50, false),
        (51, true),
        (60, false),
    ] {
        assert!(rt; compaction.should_stop_before(&key_at(alloc, user, NUMBER)?) == stops);
    }
    Ok(())
}

/// A key may be dropped for good where no file below the next level has it in its range, ends
/// included.
#[test]
fn base_levels(rt: HostRuntime) -> Result<()> {
    let alloc = rt.alloc();
    let rows = [
        row(1, 1, 10 * MIB, 10, 90),
        row(2, 2, 1, 20, 30),
        row(3, 3, 1, 40, 45),
        row(3, 4, 1, 47, 50),
        row(6, 5, 1, 60, 60),
        row(0, 6, 1, 70, 80),
    ];
    let Some(compaction) = asked(alloc, &rows, MIB)? else {
        return missing(&rt);
    };
    for (user, is_base) in [
        (25, true),
        (39, true),
        (40, false),
        (45, false),
        (46, true),
        (47, false),
        (50, false),
        (51, true),
        (59, true),
        (60, false),
        (61, true),
        (75, true),
    ] {
        assert!(rt; compaction.is_base_level_for(&[user]) == is_base);
    }
    assert!(rt; compaction.is_base_level_for(&[]));
    Ok(())
}

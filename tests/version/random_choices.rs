//! Compactions of versions at random, beside a chooser that goes through all files for each
//! question.

use super::choices::{NUMBER, Row, key_at, pointer, read_often, row, taken, version_of};
use leveldb_base::cmp::DefaultCmp;
use leveldb_base::error::Result;
use leveldb_base::types::FileNum;
use leveldb_version::version::Version;
use leveldb_version::version_edit::CompactionPointer;
use leveldb_version_set::compaction::Compaction;
use leveldb_version_set::compaction::pick::{compact_range, needs_compaction, pick_compaction};
use std::alloc::Global;
use std::process::Abort;
use support::Random;

const MIB: usize = 1 << 20;

/// The greatest user key of a version at random.
pub const GREATEST: u8 = 24;

pub fn key_at_random(random: &mut Random) -> u8 {
    random.below(u64::from(GREATEST) + 1) as u8
}

fn size_at_random(random: &mut Random) -> usize {
    match random.below(6) {
        0 => 1,
        1 => MIB,
        2 => 2 * MIB,
        3 => random.below(12 << 20) as usize,
        4 => 10 * MIB,
        _ => random.below(900 << 20) as usize,
    }
}

/// The files of a version at random: in level 0 any, and in deeper levels files that are apart.
pub fn random_rows(alloc: Global, random: &mut Random) -> Result<Vec<Row>> {
    let mut rows = Vec::new(alloc);
    let mut num = 1;
    for _ in 0..random.below(6) {
        let (a, b) = (key_at_random(random), key_at_random(random));
        rows.push(row(0, num, size_at_random(random), a.min(b), a.max(b)))?;
        num += 1;
    }
    for level in 1..7 {
        let mut first = random.below(5) as u8;
        while first <= GREATEST && random.below(4) != 0 {
            let last = first + random.below(4) as u8;
            rows.push(row(level, num, size_at_random(random), first, last))?;
            num += 1;
            first = last + 1 + random.below(4) as u8;
        }
    }
    Ok(rows)
}

// ---- the chooser

/// A range of user keys: the first one, and the last one if there is an end.
#[derive(Clone, Copy)]
pub struct Span {
    first: u8,
    last: Option<u8>,
}

impl Span {
    fn of(row: &Row) -> Span {
        Span::between(row.first, row.last)
    }

    /// The range from one key to another, both in it.
    fn between(first: u8, last: u8) -> Span {
        Span {
            first,
            last: Some(last),
        }
    }

    /// The range that two keys name, of which the empty one is open.
    pub fn named(first: u8, last: u8) -> Span {
        Span {
            first,
            last: if last == 0 { None } else { Some(last) },
        }
    }

    fn meets(&self, row: &Row) -> bool {
        self.first <= row.last && self.last.is_none_or(|last| row.first <= last)
    }
}

/// The files of a level that meet the range; in level 0 also those that meet these, and so on.
fn meeting(alloc: Global, rows: &[Row], level: usize, span: Span) -> Result<Vec<Row>> {
    let mut found: Vec<Row> = Vec::new(alloc);
    let mut grows = true;
    while grows {
        grows = false;
        for row in rows {
            let meets = span.meets(row) || (level == 0 && meets_one(found.as_slice(), row));
            if row.level == level && meets && !found.as_slice().contains(row) {
                found.push(*row)?;
                grows = true;
            }
        }
    }
    Ok(found)
}

fn meets_one(rows: &[Row], row: &Row) -> bool {
    rows.iter().any(|other| Span::of(other).meets(row))
}

/// The least range that has all of these files, if there is one.
fn hull(rows: &[Row]) -> Option<(u8, u8)> {
    let first = rows.iter().map(|row| row.first).min()?;
    let last = rows.iter().map(|row| row.last).max()?;
    Some((first, last))
}

/// The files of the next level between the ends of these.
fn next_of(alloc: Global, rows: &[Row], level: usize, chosen: &[Row]) -> Result<Vec<Row>> {
    let mut found = Vec::new(alloc);
    let Some((first, last)) = hull(chosen) else {
        return Ok(found);
    };
    for row in rows {
        if row.level == level + 1 && row.first <= last && first <= row.last {
            found.push(*row)?;
        }
    }
    Ok(found)
}

fn size_of(rows: &[Row]) -> usize {
    let mut size = 0;
    for row in rows {
        size += row.size;
    }
    size
}

/// What a level has, and what it is to have.
fn load_and_limit(rows: &[Row], level: usize) -> (u128, u128) {
    let mut load = 0;
    let mut limit = if level == 0 { 4 } else { 10 << 20 };
    for _ in 1..level {
        limit *= 10;
    }
    for row in rows {
        if row.level == level {
            load += if level == 0 { 1 } else { row.size as u128 };
        }
    }
    (load, limit)
}

/// The level of which no other level's score is greater, nor that of one above it as great, if its
/// score is 1 or more.
pub fn asking_level(rows: &[Row]) -> Option<usize> {
    for level in 0..6 {
        let (load, limit) = load_and_limit(rows, level);
        let mut is_first_greatest = load >= limit;
        for other in 0..6 {
            let (its_load, its_limit) = load_and_limit(rows, other);
            let is_greater = its_load * limit > load * its_limit;
            let is_as_great = its_load * limit == load * its_limit;
            if is_greater || (other < level && is_as_great) {
                is_first_greatest = false;
            }
        }
        if is_first_greatest {
            return Some(level);
        }
    }
    None
}

/// Whether the first file is before the second in its level: by number in level 0, else by key.
fn is_before(a: &Row, b: &Row) -> bool {
    if a.level == 0 {
        a.num < b.num
    } else {
        a.first < b.first
    }
}

/// The first of a level's files of which this holds.
fn first_in_level<F: Fn(&Row) -> bool>(rows: &[Row], level: usize, holds: F) -> Option<Row> {
    let mut best: Option<Row> = None;
    for row in rows {
        if row.level == level && holds(row) {
            best = match best {
                Some(other) if is_before(&other, row) => Some(other),
                _ => Some(*row),
            };
        }
    }
    best
}

/// The file that asks: of the level by its score the first after the pointer, or else the one that
/// reads have chosen.
pub fn asking_file(
    rows: &[Row],
    pointer: Option<(usize, u8, u64)>,
    chosen: Option<(usize, FileNum)>,
) -> Option<Row> {
    if let Some(level) = asking_level(rows) {
        let mut after = None;
        if let Some((its_level, user, number)) = pointer {
            if its_level == level {
                after = first_in_level(rows, level, |row| {
                    row.last > user || (row.last == user && NUMBER < number)
                });
            }
        }
        return after.or(first_in_level(rows, level, |_| true));
    }
    let (level, num) = chosen?;
    if level == 6 {
        return None;
    }
    first_in_level(rows, level, |row| row.num == num)
}

/// The files of a level and of the next that a compaction takes.
#[derive(Drop)]
pub struct Choice {
    level: usize,
    of_level: Vec<Row>,
    of_next: Vec<Row>,
}

/// The choice that begins with these files.
fn grown(
    alloc: Global,
    rows: &[Row],
    level: usize,
    begun: Vec<Row>,
    max: usize,
) -> Result<Option<Choice>> {
    let of_next = next_of(alloc, rows, level, begun.as_slice())?;
    let mut both = Vec::new(alloc);
    for row in begun.as_slice() {
        both.push(*row)?;
    }
    for row in of_next.as_slice() {
        both.push(*row)?;
    }
    let Some((first, last)) = hull(both.as_slice()) else {
        return Ok(None);
    };
    if !of_next.is_empty() {
        let wide = meeting(alloc, rows, level, Span::between(first, last))?;
        let wide_next = next_of(alloc, rows, level, wide.as_slice())?;
        let size = size_of(wide.as_slice()) + size_of(wide_next.as_slice());
        if wide.len() > begun.len() && wide_next.len() == of_next.len() && size < 25 * max {
            return Ok(Some(Choice {
                level,
                of_level: wide,
                of_next: wide_next,
            }));
        }
    }
    Ok(Some(Choice {
        level,
        of_level: begun,
        of_next,
    }))
}

pub fn choice_of_asking(
    alloc: Global,
    rows: &[Row],
    file: Row,
    max: usize,
) -> Result<Option<Choice>> {
    let mut begun = Vec::new(alloc);
    if file.level == 0 {
        begun = meeting(alloc, rows, 0, Span::of(&file))?;
    } else {
        begun.push(file)?;
    }
    grown(alloc, rows, file.level, begun, max)
}

pub fn choice_of_range(
    alloc: Global,
    rows: &[Row],
    level: usize,
    span: Span,
    max: usize,
) -> Result<Option<Choice>> {
    let met = meeting(alloc, rows, level, span)?;
    let mut begun: Vec<Row> = Vec::new(alloc);
    for _ in 0..met.len() {
        if level > 0 && size_of(begun.as_slice()) > max {
            break;
        }
        let next = first_in_level(met.as_slice(), level, |row| !begun.as_slice().contains(row));
        if let Some(row) = next {
            begun.push(row)?;
        }
    }
    grown(alloc, rows, level, begun, max)
}

// ---- comparisons

fn numbers_of(alloc: Global, rows: &[Row]) -> Result<Vec<FileNum>> {
    let mut numbers = Vec::new(alloc);
    for row in rows {
        numbers.push(row.num)?;
    }
    numbers.sort()?;
    Ok(numbers)
}

/// Whether a compaction is this choice, and its edit points to the end of its files of the level.
fn is_choice(alloc: Global, made: &Compaction<DefaultCmp>, wanted: &Choice) -> Result<bool> {
    let of_level = numbers_of(alloc, wanted.of_level.as_slice())?;
    let of_next = numbers_of(alloc, wanted.of_next.as_slice())?;
    let Some((_, last)) = hull(wanted.of_level.as_slice()) else {
        return Ok(false);
    };
    let points = [pointer(alloc, wanted.level, last, NUMBER)?];
    Ok(
        made.level() == wanted.level
            && taken(alloc, made, 0)?.as_slice() == of_level.as_slice()
            && taken(alloc, made, 1)?.as_slice() == of_next.as_slice()
            && made.edit().compaction_ptrs.as_slice() == points.as_slice(),
    )
}

/// Whether a compaction is this choice, or there is neither.
pub fn are_same(
    alloc: Global,
    made: &Option<Compaction<DefaultCmp>>,
    wanted: &Option<Choice>,
) -> Result<bool> {
    match (made, wanted) {
        (Some(made), Some(wanted)) => is_choice(alloc, made, wanted),
        (None, None) => Ok(true),
        _ => Ok(false),
    }
}

/// How many bytes two levels down the files have that meet a file.
fn two_down(rows: &[Row], file: &Row) -> usize {
    let mut size = 0;
    for row in rows {
        if row.level == file.level + 2 && Span::of(file).meets(row) {
            size += row.size;
        }
    }
    size
}

/// Whether a choice is only moved.
fn is_moved(rows: &[Row], choice: &Choice, max: usize) -> bool {
    match choice.of_level.as_slice() {
        [file] => choice.of_next.is_empty() && two_down(rows, file) < 10 * max,
        _ => false,
    }
}

/// Whether each key is as in the rows: in a range below the next level, or in none.
fn has_base_levels(alloc: Global, rows: &[Row], made: &Compaction<DefaultCmp>) -> Result<bool> {
    for user in 0..GREATEST + 9 {
        let key = key_at(alloc, user, NUMBER)?;
        let wanted = !rows.iter().any(|row| {
            row.level > made.level() + 1 && row.first <= user && user <= row.last
        });
        if made.is_base_level_for(&key[..key.len() - 8]) != wanted {
            return Ok(false);
        }
    }
    Ok(true)
}

/// Whether outputs are cut before keys that come in order as a count of all files that were passed
/// says.
fn is_cut(
    alloc: Global,
    rows: &[Row],
    made: &mut Compaction<DefaultCmp>,
    max: usize,
    step: u8,
) -> Result<bool> {
    let mut passed: Vec<Row> = Vec::new(alloc);
    let mut overlapped = 0;
    let mut user = step - 1;
    let mut begun = false;
    while user < GREATEST + 9 {
        for row in rows {
            let is_passed = row.level == made.level() + 2 && row.last < user;
            if is_passed && !passed.as_slice().contains(row) {
                passed.push(*row)?;
                overlapped += if begun { row.size } else { 0 };
            }
        }
        begun = true;
        let wanted = overlapped > 10 * max;
        if wanted {
            overlapped = 0;
        }
        if made.should_stop_before(&key_at(alloc, user, NUMBER)?) != wanted {
            return Ok(false);
        }
        user += step;
    }
    Ok(true)
}

/// Whether the edit deletes each file that is taken, and no other.
fn deletes_inputs(made: Compaction<DefaultCmp>, choice: &Choice) -> Result<bool> {
    let mut made = made;
    made.add_input_deletions()?;
    let edit = made.into_edit();
    let mut all = choice.of_level.iter().chain(choice.of_next.iter());
    Ok(
        edit.deleted.len() == choice.of_level.len() + choice.of_next.len()
            && all.all(|row| edit.deleted.contains(&(row.level, row.num))),
    )
}

/// Chooses a file of the version by the seeks that it may take, if those aren't many, or none.
fn read_at_random(
    rt: &impl Abort,
    random: &mut Random,
    rows: &[Row],
    version: &mut Version<DefaultCmp>,
) -> Option<(usize, FileNum)> {
    if rows.is_empty() || random.below(3) == 0 {
        return None;
    }
    let file = rows[random.below(rows.len() as u64) as usize];
    if file.size > 2 * MIB {
        return None;
    }
    let at = (file.level, file.num);
    read_often(rt, at, |stats| version.update_stats(stats));
    Some(at)
}

/// What the cases have seen.
#[derive(Debug, Drop)]
struct Seen {
    asked: usize,
    wide: usize,
    moved: usize,
    ranged: usize,
}

/// Compares what a version asks for.
fn check_asked(
    rt: &(impl Abort + AllocGlobal),
    random: &mut Random,
    rows: &[Row],
    seen: &mut Seen,
) -> Result<()> {
    let alloc = rt.alloc();
    let mut version = version_of(alloc, rows)?;
    let chosen = read_at_random(rt, random, rows, &mut version);
    let max = 1 + random.below(4 << 20) as usize;
    let mut pointers: Vec<CompactionPointer> = Vec::new(alloc);
    let mut at = None;
    if random.below(3) != 0 {
        let level = asking_level(rows).unwrap_or(3);
        let (user, number) = (key_at_random(random), NUMBER - 1 + random.below(3));
        pointers.push(pointer(alloc, level, user, number)?)?;
        at = Some((level, user, number));
    }
    assert!(rt; version.level_by_score() == asking_level(rows));
    let file = asking_file(rows, at, chosen);
    assert!(rt; needs_compaction(&version) == file.is_some());
    let wanted = match file {
        Some(file) => choice_of_asking(alloc, rows, file, max)?,
        None => None,
    };
    let made = pick_compaction(alloc, &version, pointers.as_slice(), max)?;
    assert!(rt; are_same(alloc, &made, &wanted)?);
    let (Some(mut made), Some(wanted)) = (made, wanted) else {
        return Ok(());
    };
    seen.asked += 1;
    seen.wide += (wanted.level > 0 && wanted.of_level.len() > 1) as usize;
    seen.moved += made.is_trivial_move() as usize;
    assert!(rt; made.is_trivial_move() == is_moved(rows, &wanted, max));
    assert!(rt; has_base_levels(alloc, rows, &made)?);
    let step = 1 + random.below(5) as u8;
    assert!(rt; is_cut(alloc, rows, &mut made, max, step)?);
    assert!(rt; deletes_inputs(made, &wanted)?);
    Ok(())
}

/// Compares what a range takes.
fn check_range(
    rt: &(impl Abort + AllocGlobal),
    random: &mut Random,
    rows: &[Row],
    seen: &mut Seen,
) -> Result<()> {
    let alloc = rt.alloc();
    let version = version_of(alloc, rows)?;
    let max = 1 + random.below(4 << 20) as usize;
    let level = random.below(6) as usize;
    let (first, last) = (key_at_random(random), key_at_random(random));
    let wanted = choice_of_range(alloc, rows, level, Span::named(first, last), max)?;
    let (begin, end) = (key_at(alloc, first, 1000)?, key_at(alloc, last, 1000)?);
    let made = compact_range(alloc, &version, level, &begin, &end, max)?;
    assert!(rt; are_same(alloc, &made, &wanted)?);
    let (Some(made), Some(wanted)) = (made, wanted) else {
        return Ok(());
    };
    seen.ranged += 1;
    assert!(rt; !made.is_trivial_move());
    assert!(rt; deletes_inputs(made, &wanted)?);
    Ok(())
}

/// Of 3000 versions at random, each choice is the chooser's.
#[test]
fn choices_as_tried(rt: HostRuntime) -> Result<()> {
    let alloc = rt.alloc();
    let mut random = Random(59);
    let mut seen = Seen {
        asked: 0,
        wide: 0,
        moved: 0,
        ranged: 0,
    };
    for _ in 0..3000 {
        let rows = random_rows(alloc, &mut random)?;
        check_asked(&rt, &mut random, rows.as_slice(), &mut seen)?;
        check_range(&rt, &mut random, rows.as_slice(), &mut seen)?;
    }
    assert!(rt; seen.asked > 600 && seen.ranged > 300);
    assert!(rt; seen.wide > 20 && seen.moved > 20);
    Ok(())
}

//! The compactions of a version set: which ones it asks for, beside a chooser that goes through all
//! files, the merge of the tables that one takes, and the set after its edit.

use super::choices::{NUMBER, Row, file_of, key_at, missing, read_often};
use super::gets::{Choices, Entry, TABLES, Tables, key_of, put_table};
use super::random_choices::{
    Span, are_same, asking_file, asking_level, choice_of_asking, choice_of_range, key_at_random,
    random_rows,
};
use super::stored::Stored;
use leveldb_base::cmp::{Cmp, DefaultCmp, InternalKeyCmp};
use leveldb_base::error::Result;
use leveldb_base::types::FileNum;
use leveldb_env::compressor::CompressorList;
use leveldb_env::filter::BloomPolicy;
use leveldb_env::mem_env::MemEnv;
use leveldb_env::options::in_memory;
use leveldb_iter::walk::Walk;
use leveldb_version::table_cache::ReadTables;
use leveldb_version::version::GetStats;
use leveldb_version::version_edit::VersionEdit;
use leveldb_version_set::version_set::Compaction;
use std::alloc::Global;
use std::process::Abort;
use support::Random;

// ---- which ones it asks for

/// A pointer: its level, its user key and its number.
type Pointer = (usize, u8, u64);

/// A set that has these files, and a pointer.
fn set_of(alloc: Global, rows: &[Row], pointer: Option<Pointer>) -> Result<Stored<MemEnv>> {
    let mut edit = VersionEdit::new(alloc);
    for row in rows {
        edit.add_file(row.level, file_of(alloc, row)?)?;
    }
    if let Some((level, user, number)) = pointer {
        edit.set_compact_pointer(level, &key_at(alloc, user, number)?)?;
    }
    let mut stored = Stored::beside_a_store(alloc, MemEnv::new(alloc))?;
    stored.recover()?;
    stored.log(edit)?;
    Ok(stored)
}

/// Reads a file of the set until it is chosen, if it is small, or none.
fn read_one(
    rt: &impl Abort,
    random: &mut Random,
    rows: &[Row],
    stored: &mut Stored<MemEnv>,
) -> Option<(usize, FileNum)> {
    if rows.is_empty() || random.below(3) == 0 {
        return None;
    }
    let file = rows[random.below(rows.len() as u64) as usize];
    if file.size > 2 << 20 {
        return None;
    }
    let at = (file.level, file.num);
    read_often(rt, at, |stats| stored.set.update_stats(stats));
    Some(at)
}

/// Compares what a set of these files asks for, and what a range takes.
fn check_set(
    rt: &(impl Abort + AllocGlobal),
    options: &mut Choices,
    random: &mut Random,
    rows: &[Row],
) -> Result<()> {
    let alloc = rt.alloc();
    let level = asking_level(rows).unwrap_or(3);
    let pointer = (level, key_at_random(random), NUMBER - 1 + random.below(3));
    let pointer = if random.below(3) == 0 {
        None
    } else {
        Some(pointer)
    };
    let mut stored = set_of(alloc, rows, pointer)?;
    let chosen = read_one(rt, random, rows, &mut stored);
    let max = 1 + random.below(4 << 20) as usize;
    options.max_file_size = max;
    let file = asking_file(rows, pointer, chosen);
    assert!(rt; stored.set.needs_compaction() == file.is_some());
    let wanted = match file {
        Some(file) => choice_of_asking(alloc, rows, file, max)?,
        None => None,
    };
    assert!(rt; are_same(alloc, &stored.set.pick_compaction(options)?, &wanted)?);

    let level = random.below(6) as usize;
    let (first, last) = (key_at_random(random), key_at_random(random));
    let wanted = choice_of_range(alloc, rows, level, Span::named(first, last), max)?;
    let (begin, end) = (key_at(alloc, first, 1000)?, key_at(alloc, last, 1000)?);
    let made = stored.set.compact_range(options, level, &begin, &end)?;
    assert!(rt; are_same(alloc, &made, &wanted)?);
    Ok(())
}

/// Of 100 sets at random, each choice is the chooser's.
#[test]
fn sets_as_tried(rt: HostRuntime) -> Result<()> {
    let mut random = Random(7);
    let (_, mut options) = in_memory(rt.alloc());
    for _ in 0..100 {
        let rows = random_rows(rt.alloc(), &mut random)?;
        check_set(&rt, &mut options, &mut random, rows.as_slice())?;
    }
    Ok(())
}

// ---- merges

/// A set of all tables, which are written, and its options.
fn set_of_tables(rt: &(impl Abort + AllocGlobal)) -> Result<(Stored<MemEnv>, Choices)> {
    let (mut env, options) = in_memory(rt.alloc());
    let mut edit = VersionEdit::new(rt.alloc());
    for rows in &TABLES {
        edit.add_file(rows.0, put_table(rt, &mut env, &options, rows)?)?;
    }
    let mut stored = Stored::beside_a_store(rt.alloc(), env)?;
    stored.recover()?;
    stored.set.mark_file_number_used(9)?;
    stored.log(edit)?;
    Ok((stored, options))
}

/// The keys and values of a walk over the tables that a compaction takes, in its order.
fn merged(
    rt: &(impl Abort + AllocGlobal),
    stored: &mut Stored<MemEnv>,
    options: &Choices,
    compaction: &Compaction<DefaultCmp>,
) -> Result<Vec<(Vec<u8>, Vec<u8>)>> {
    let mut tables = Tables::new(rt.alloc(), "db", options)?;
    let mut reading = ReadTables {
        cache: &mut tables,
        cmp: DefaultCmp,
        policy: options.filter_policy,
        compressors: &options.compressor_list,
        below: stored.set.next_file_num(),
    };
    let mut pairs = Vec::new(rt.alloc());
    let mut merge = stored
        .set
        .make_input_iterator::<BloomPolicy, CompressorList>(compaction)?;
    while merge.advance(&mut stored.env, &mut reading)? {
        if let Some((key, value)) = here(&merge) {
            pairs.push((key.to_vec(rt.alloc())?, value.to_vec(rt.alloc())?))?;
        }
    }
    Ok(pairs)
}

type Read<'a> = ReadTables<'a, MemEnv, DefaultCmp, BloomPolicy, CompressorList>;

fn here<'a, 'b, W: Walk<MemEnv, Read<'b>>>(walk: &'a W) -> Option<(&'a [u8], &'a [u8])> {
    walk.current()
}

/// Whether the pairs are all entries of these tables, each once, and in order.
fn are_entries(
    rt: &(impl Abort + AllocGlobal),
    pairs: &[(Vec<u8>, Vec<u8>)],
    tables: &[u64],
) -> Result<bool> {
    let mut count = 0;
    for rows in &TABLES {
        if tables.contains(&rows.1) {
            for entry in rows.2 {
                count += 1;
                if !has_entry(rt, pairs, entry)? {
                    return Ok(false);
                }
            }
        }
    }
    let cmp = InternalKeyCmp(DefaultCmp);
    let rise = pairs
        .windows(2)
        .all(|two| cmp.cmp(&two[0].0, &two[1].0).is_lt());
    Ok(rise && count == pairs.len())
}

fn has_entry(
    rt: &(impl Abort + AllocGlobal),
    pairs: &[(Vec<u8>, Vec<u8>)],
    entry: &Entry,
) -> Result<bool> {
    let key = key_of(rt, entry)?;
    let value = entry.2.unwrap_or("").as_bytes();
    Ok(pairs.iter().any(|pair| pair.0.as_slice() == key.as_slice() && pair.1.as_slice() == value))
}

/// The merge has the pairs of all tables that are taken, in the order of internal keys.
#[test]
fn inputs_are_merged(rt: HostRuntime) -> Result<()> {
    let (mut stored, options) = set_of_tables(&rt)?;
    for (level, tables) in [(0, &[8, 9, 6, 7][..]), (1, &[6, 7, 3][..]), (2, &[3][..])] {
        let (begin, end) = (
            key_of(&rt, &("a", 30, None))?,
            key_of(&rt, &("z", 1, None))?,
        );
        let picked = stored.set.compact_range(&options, level, &begin, &end)?;
        let Some(compaction) = picked else {
            return missing(&rt);
        };
        let pairs = merged(&rt, &mut stored, &options, &compaction)?;
        assert!(rt; are_entries(&rt, pairs.as_slice(), tables)?);
    }
    Ok(())
}

/// A compaction borrows nothing of its set, which goes on meanwhile. Its edit, in which the files
/// that it takes are deleted, ends what was asked for.
#[test]
fn set_after_a_compaction(rt: HostRuntime) -> Result<()> {
    let (mut stored, options) = set_of_tables(&rt)?;
    assert!(rt; !stored.set.needs_compaction());
    assert!(rt; stored.set.pick_compaction(&options)?.is_none());
    let stats = GetStats { file: Some((1, 7)) };
    while !stored.set.update_stats(stats) {}
    assert!(rt; stored.set.needs_compaction());
    let Some(mut compaction) = stored.set.pick_compaction(&options)? else {
        return missing(&rt);
    };
    assert!(rt; compaction.level() == 1);
    let number = stored.set.new_file_number()?;
    stored.log_none(rt.alloc())?;
    compaction.add_input_deletions()?;
    let taken = compaction.num_inputs(0) + compaction.num_inputs(1);
    stored.log(compaction.into_edit())?;
    assert!(rt; !stored.set.needs_compaction());
    assert!(rt; stored.set.files().len() == TABLES.len() - taken);
    assert!(rt; stored.set.next_file_num() == number + 1);
    Ok(())
}

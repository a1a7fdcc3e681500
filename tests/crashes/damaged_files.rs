//! Stores of which one file is cut to each length, has each of its bytes raised, or is taken away, and is opened then. An opening fails as
//! damage does, or what is found is what the slow reader reads of the changed files. Of a table that is damaged nothing wrong is found.
use super::replies::{KEYS, has};
use super::steps::{Step, commands_of, landings_of};
use super::twelve_keys::{OVER_ALL, STEPS};
use leveldb_base::cmp::DefaultCmp;
use leveldb_base::error::{Result, StatusCode};
use leveldb_base::names::parse_file_name;
use leveldb_base::types::FileType;
use leveldb_env::filter::BloomPolicy;
use leveldb_env::mem_env::MemEnv;
use leveldb_env::options::Options;
use rusty_leveldb::shell::{Reply, Step as ShellStep, run};
use slow_history::{BorrowedPair, Entry, Move, is_walk, view_of};
use slow_store::{Contents, read_store};
use std::alloc::Global;
use std::process::Abort;
use support::{Change, File, bytes_in, disk_of, disk_with, files_on, is_free, put_file};

pub type DefaultOptions = Options<DefaultCmp, BloomPolicy>;

/// Down over all pairs of either store, past the first.
const DOWN: &[Move<'static>] = &[
    Move::Seek(b"l"),
    Move::Prev,
    Move::Prev,
    Move::Prev,
    Move::Prev,
    Move::Prev,
    Move::Prev,
    Move::Prev,
    Move::Prev,
    Move::Prev,
    Move::Prev,
    Move::Prev,
    Move::Prev,
    Move::Seek(b"b"),
    Move::Prev,
    Move::Prev,
];

/// What is asked of a store that was opened.
const ASKED: &[Step] = &[
    Step::Get("a"),
    Step::Get("b"),
    Step::Get("c"),
    Step::Get("d"),
    Step::Get("e"),
    Step::Get("f"),
    Step::Get("g"),
    Step::Get("h"),
    Step::Get("i"),
    Step::Get("j"),
    Step::Get("k"),
    Step::Get("l"),
    Step::Get("m"),
    Step::Walk(None, OVER_ALL),
    Step::Walk(None, DOWN),
];

/// A table with a key, a log with another.
const TWO_PUTS: &[Step] = &[Step::Put("a", "1"), Step::Put("b", "2")];

/// How a store is made and opened: the size of its memtable and of its blocks, and whether logs and manifest are used on.
#[derive(Clone, Copy)]
struct Making {
    buffer: usize,
    block: usize,
    reuses: bool,
    /// One of so many changes is tried.
    every: usize,
}

fn options_of(making: Making) -> DefaultOptions {
    let mut options = Options::default();
    options.write_buffer_size = making.buffer;
    options.block_size = making.block;
    options.reuse_logs = making.reuses;
    options.reuse_manifest = making.reuses;
    options
}

/// How many changes there are, how many changed disks were opened, how many of these openings failed, and how many replies of those that did not.
#[derive(Clone, Copy, Debug)]
pub struct Counts {
    changes: usize,
    disks: usize,
    refused_openings: usize,
    refused_replies: usize,
}

/// The files that these steps leave, and one that is of no store.
fn files_of(alloc: Global, making: Making, steps: &[Step]) -> Result<Vec<File>> {
    let mut env = MemEnv::new(alloc);
    let mut replies = Vec::new(alloc);
    let commands = commands_of(alloc, steps)?;
    run(&mut env, "db", options_of(making), &commands, &mut replies)?;
    put_file(alloc, &mut env, "notes.txt", b"notes")?;
    files_on(alloc, &mut env)
}

/// The entries by their rising numbers.
fn in_order(alloc: Global, contents: &Contents) -> Result<Vec<&Entry>> {
    let mut entries = Vec::new(alloc);
    for sequence in 1..=contents.last {
        for entry in &contents.entries {
            if entry.sequence == sequence {
                entries.push(entry)?;
            }
        }
    }
    Ok(entries)
}

/// The map of what the slow reader read.
pub fn map_of(alloc: Global, contents: &Contents) -> Result<Vec<BorrowedPair<'_>>> {
    let entries = in_order(alloc, contents)?;
    view_of(alloc, &DefaultCmp, entries.as_slice(), contents.last)
}

/// Whether each move that failed did as damage does, and none failed where none may.
fn have_causes(steps: &[ShellStep], may_fail: bool) -> bool {
    for led in steps {
        if let ShellStep::Refused(status) = led
            && !(may_fail && status.code == StatusCode::Corruption)
        {
            return false;
        }
    }
    true
}

/// Whether a store of this map may reply so, where damage may be found or not.
fn is_reply(
    alloc: Global,
    map: &[BorrowedPair<'_>],
    step: &Step,
    reply: &Reply,
    may_fail: bool,
) -> Result<bool> {
    Ok(match (step, reply) {
        (_, Reply::Refused(status)) => may_fail && status.code == StatusCode::Corruption,
        (Step::Get(key), _) => has(map, key, reply),
        (Step::Walk(_, moves), Reply::Walk(steps)) => {
            let landings = landings_of(alloc, steps)?;
            is_walk(&DefaultCmp, map, moves, &landings) && have_causes(steps, may_fail)
        }
        _ => false,
    })
}

/// Whether a store of this map may reply all this.
fn are_replies(
    alloc: Global,
    map: &[BorrowedPair<'_>],
    replies: &[Reply],
    may_fail: bool,
) -> Result<bool> {
    for (step, reply) in ASKED.iter().zip(replies) {
        if !is_reply(alloc, map, step, reply, may_fail)? {
            return Ok(false);
        }
    }
    Ok(replies.len() == ASKED.len())
}

fn leads_to(steps: &[ShellStep], key: &str) -> bool {
    steps.iter().any(
        |led| matches!(led, ShellStep::At(found, _) if found.as_slice() == key.as_bytes()),
    )
}

/// Whether a reply tells what a key has, or that it has nothing.
fn tells_of(step: &Step, reply: &Reply, key: &str) -> bool {
    match (step, reply) {
        (Step::Get(asked), Reply::Value(_) | Reply::Nothing) => *asked == key,
        (_, Reply::Walk(steps)) => leads_to(steps, key),
        _ => false,
    }
}

fn is_told_of(replies: &[Reply], key: &str) -> bool {
    ASKED
        .iter()
        .zip(replies)
        .any(|(step, reply)| tells_of(step, reply, key))
}

/// The start and the end of a table's block that has this key alone, its type and its checksum: an entry that shares nothing with
/// others, of a key and 8 bytes more, with the value's length before it. None if the table doesn't have the key.
fn block_of(table: &[u8], key: &[u8]) -> Option<(usize, usize)> {
    let [letter] = key else {
        return None;
    };
    for (start, window) in table.windows(4).enumerate() {
        if window[0] == 0 && window[1] == 9 && window[3] == *letter {
            return Some((start, start + 12 + usize::from(window[2]) + 8 + 5));
        }
    }
    None
}

/// Whether a byte of a table is in the block of this key, which is that of all keys of the map that the table has, or has one alone.
fn is_in_block_of(
    map: &[BorrowedPair<'_>],
    table: &[u8],
    key: &[u8],
    at: usize,
    is_shared: bool,
) -> bool {
    let Some((start, end)) = block_of(table, key) else {
        return false;
    };
    let mut last = end;
    for pair in map {
        if let Some((_, end)) = block_of(table, pair.0)
            && end > last
        {
            last = end;
        }
    }
    at < last && is_shared || start <= at && at < end
}

/// Whether nothing is told of a key of the map whose block has the changed byte.
fn is_untold(
    map: &[BorrowedPair<'_>],
    table: &[u8],
    change: Change,
    replies: &[Reply],
    is_shared: bool,
) -> bool {
    let Change::Raised(at) = change else {
        return true;
    };
    for key in &KEYS {
        let bytes = key.as_bytes();
        let is_there = map.iter().any(|pair| pair.0 == bytes);
        if is_there
            && is_in_block_of(map, table, bytes, at, is_shared)
            && is_told_of(replies, key)
        {
            return false;
        }
    }
    true
}

fn count_refused(replies: &[Reply]) -> usize {
    replies
        .iter()
        .filter(|reply| matches!(reply, Reply::Refused(_)))
        .count()
}

/// Whether a file of this name may be deleted by an opening: an obsolete log, manifest or table, or a temporary file.
fn may_go(alloc: Global, name: &str) -> bool {
    matches!(
        parse_file_name(alloc, name),
        Ok((
            _,
            FileType::Log | FileType::Descriptor | FileType::Table | FileType::Temp
        ))
    )
}

/// Whether an opening may leave this of a file: its bytes, and more of them in a manifest; and where it goes on, another manifest's
/// name in `CURRENT`, or no file. The manifest of a new store takes the place of one of its number.
fn may_be_left(alloc: Global, end: End, name: &str, before: &[u8], after: Option<&[u8]>) -> bool {
    match after {
        Some(bytes) if bytes == before => true,
        Some(_) if end == End::Made && name == "MANIFEST-000001" => true,
        Some(bytes) if name.starts_with("MANIFEST-") => bytes.starts_with(before),
        Some(_) => end == End::Opened && name == "CURRENT",
        None => end != End::Failed && may_go(alloc, name),
    }
}

/// Whether a file that wasn't there may be made by an opening: the lock, or a table, where it goes on a log or a manifest, and of a new store `CURRENT`.
fn may_be_made(alloc: Global, end: End, name: &str) -> bool {
    match parse_file_name(alloc, name) {
        Ok((_, FileType::DBLock | FileType::Table)) => true,
        Ok((_, FileType::Log | FileType::Descriptor)) => end != End::Failed,
        Ok((_, FileType::Current)) => end == End::Made,
        _ => false,
    }
}

/// Whether this file is a damaged log or manifest that an opening set aside: it has the bytes that one had, which isn't under its own
/// name any more.
fn is_set_aside(alloc: Global, end: End, before: &[File], after: &[File], file: &File) -> bool {
    let Some(name) = file.0.as_str().strip_suffix(".damaged") else {
        return false;
    };
    let is_kind = matches!(
        parse_file_name(alloc, name),
        Ok((_, FileType::Log | FileType::Descriptor))
    );
    is_kind
        && end != End::Failed
        && bytes_in(before, name) == Some(file.1.as_slice())
        && bytes_in(after, name).is_none()
}

/// How an opening ended.
#[derive(Clone, Copy, PartialEq, Eq)]
enum End {
    Failed,
    Opened,
    /// It made a store, since none was there.
    Made,
}

/// Whether these files are no store, so that a new one is made beside them: neither `CURRENT` nor a table nor a log is among them.
fn are_none(alloc: Global, files: &[File]) -> bool {
    !files.iter().any(|(name, _)| {
        matches!(
            parse_file_name(alloc, name.as_str()),
            Ok((_, FileType::Current | FileType::Table | FileType::Log))
        )
    })
}

/// Whether an opening may have made these files of those.
pub fn are_left(alloc: Global, is_open: bool, before: &[File], after: &[File]) -> bool {
    let end = match is_open {
        false => End::Failed,
        true if are_none(alloc, before) => End::Made,
        true => End::Opened,
    };
    for (name, bytes) in before {
        let left = bytes_in(after, name.as_str());
        if !may_be_left(alloc, end, name.as_str(), bytes.as_slice(), left) {
            return false;
        }
    }
    after.iter().all(|file| {
        let name = file.0.as_str();
        bytes_in(before, name).is_some()
            || may_be_made(alloc, end, name)
            || is_set_aside(alloc, end, before, after, file)
    })
}

/// A store that is sound, and how it is opened.
#[derive(Drop)]
struct Sound {
    making: Making,
    files: Vec<File>,
    contents: Contents,
}

fn sound_store(alloc: Global, making: Making, steps: &[Step]) -> Result<Sound> {
    let files = files_of(alloc, making, steps)?;
    let mut env = disk_of(alloc, &files)?;
    let Some(contents) = read_store(alloc, &mut env, &DefaultCmp, "db")? else {
        return leveldb_base::error::err(alloc, StatusCode::NotFound, "no store");
    };
    Ok(Sound {
        making,
        files,
        contents,
    })
}

fn no_contents(alloc: Global) -> Contents {
    Contents {
        comparator: String::new(alloc),
        entries: Vec::new(alloc),
        in_tables: 0,
        last: 0,
    }
}

/// What the slow reader reads, if the files are a store. Where none is there, a new one has nothing.
pub fn read_slowly(alloc: Global, env: &mut MemEnv) -> Result<Option<Contents>> {
    match read_store(alloc, env, &DefaultCmp, "db") {
        Err(status) if status.code == StatusCode::Corruption => Ok(None),
        Err(status) => Err(status),
        Ok(None) => Ok(Some(no_contents(alloc))),
        read => read,
    }
}

/// Whether this may be what an opening returned and what was replied then, where this file was changed. `read` is what the slow reader
/// read of the changed files.
fn is_allowed(
    alloc: Global,
    sound: &Sound,
    file: &File,
    change: Change,
    read: Option<&Contents>,
    opened: &Result<()>,
    replies: &[Reply],
) -> Result<bool> {
    let is_table = file.0.as_str().ends_with(".ldb");
    match (opened, read) {
        (Err(status), None) => Ok(status.code == StatusCode::Corruption),
        (Err(_), Some(_)) => Ok(false),
        (Ok(()), Some(contents)) => {
            are_replies(alloc, &map_of(alloc, contents)?, replies, is_table)
        }
        (Ok(()), None) => {
            let map = map_of(alloc, &sound.contents)?;
            Ok(
                is_table
                    && !matches!(change, Change::TakenAway)
                    && are_replies(alloc, &map, replies, true)?
                    && is_untold(
                        &map,
                        file.1.as_slice(),
                        change,
                        replies,
                        sound.making.block > 1,
                    ),
            )
        }
    }
}

/// Opens the store with this file changed so, if this change is among those that are tried.
fn try_change(
    rt: &impl Abort,
    alloc: Global,
    sound: &Sound,
    file: &File,
    change: Change,
    counts: &mut Counts,
) -> Result<()> {
    counts.changes += 1;
    if counts.changes % sound.making.every != 0 {
        return Ok(());
    }
    open_changed(rt, alloc, sound, file, change, counts)
}

/// Opens the store with this file changed so.
fn open_changed(
    rt: &impl Abort,
    alloc: Global,
    sound: &Sound,
    file: &File,
    change: Change,
    counts: &mut Counts,
) -> Result<()> {
    let name = file.0.as_str();
    let mut env = disk_with(alloc, &sound.files, name, change)?;
    let before = files_on(alloc, &mut env)?;
    let read = read_slowly(alloc, &mut env)?;
    let mut replies = Vec::new(alloc);
    let commands = commands_of(alloc, ASKED)?;
    let options = options_of(sound.making);
    let opened = run(&mut env, "db", options, &commands, &mut replies);
    let is_right = is_allowed(alloc, sound, file, change, read.as_ref(), &opened, &replies)?;
    assert!(rt; is_right, "{name}, {change:?}");
    let after = files_on(alloc, &mut env)?;
    assert!(rt;
        are_left(alloc, opened.is_ok(), &before, &after) && is_free(&mut env)?,
        "files, {name}, {change:?}"
    );
    counts.disks += 1;
    counts.refused_openings += usize::from(opened.is_err());
    counts.refused_replies += count_refused(&replies);
    Ok(())
}

/// Opens the store with this file cut to each length, with each byte raised, and taken away.
fn change_file(
    rt: &impl Abort,
    alloc: Global,
    sound: &Sound,
    file: &File,
    counts: &mut Counts,
) -> Result<()> {
    for at in 0..file.1.len() {
        try_change(rt, alloc, sound, file, Change::Cut(at), counts)?;
        try_change(rt, alloc, sound, file, Change::Raised(at), counts)?;
    }
    try_change(rt, alloc, sound, file, Change::TakenAway, counts)
}

/// Opens a store with each of its files changed in each way.
fn change_each(rt: &impl Abort, alloc: Global, making: Making, steps: &[Step]) -> Result<Counts> {
    let mut counts = Counts {
        changes: 0,
        disks: 0,
        refused_openings: 0,
        refused_replies: 0,
    };
    let sound = sound_store(alloc, making, steps)?;
    for file in &sound.files {
        change_file(rt, alloc, &sound, file, &mut counts)?;
    }
    Ok(counts)
}

fn assert_counts(rt: &impl Abort, counts: Counts, disks: usize) {
    let is_right = counts.disks == disks
        && counts.refused_openings * 10 > disks
        && counts.refused_replies * 10 > disks;
    assert!(rt; is_right, "{counts:?}");
}

/// Changes each file of a store with a table and a log, both of one pair: one of so many of these changes.
pub fn change_two_puts(
    rt: &impl Abort,
    alloc: Global,
    reuses: bool,
    every: usize,
    disks: usize,
) -> Result<Counts> {
    let making = Making {
        buffer: 1,
        block: 4096,
        reuses,
        every,
    };
    let counts = change_each(rt, alloc, making, TWO_PUTS)?;
    assert_counts(rt, counts, disks);
    Ok(counts)
}

/// Changes each file of the store that these steps leave, whose tables have blocks of this size: a block of 1 byte has one key. One of so
/// many of these changes is tried.
pub fn change_blocks(
    rt: &impl Abort,
    alloc: Global,
    steps: &[Step],
    block: usize,
    every: usize,
) -> Result<Counts> {
    let making = Making {
        buffer: 300,
        block,
        reuses: true,
        every,
    };
    let counts = change_each(rt, alloc, making, steps)?;
    // An opening reads few bytes of the tables, so that most of these disks are opened.
    let is_right = counts.disks * every > 1000
        && counts.refused_openings * every > 100
        && counts.refused_replies * 10 > counts.disks;
    assert!(rt; is_right, "{counts:?}");
    Ok(counts)
}

/// Files of 16, 5, 24, 81 and 177 bytes, and a lock.
#[test]
fn a_table_and_a_log(rt: HostRuntime) -> Result<()> {
    change_two_puts(&rt, rt.alloc(), true, 5, 122)?;
    Ok(())
}

/// The table of a compaction with one block for all keys.
#[test]
fn a_table_of_a_compaction(rt: HostRuntime) -> Result<()> {
    change_blocks(&rt, rt.alloc(), STEPS, 4096, 31)?;
    Ok(())
}

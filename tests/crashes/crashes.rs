//! A store in memory after each of a dozen batches, and a crash that leaves each prefix of its
//! log's unsynced bytes, or all of them with the last byte changed: the map that is found is that
//! of a prefix of the batches with all durable ones, and the store goes on from there.
use super::replies::{are_same, bytes_of, is_any_map, look_ups};
use leveldb_base::cmp::DefaultCmp;
use leveldb_base::error::Result;
use rusty_leveldb::env::Env;
use rusty_leveldb::env::whole_files::read_file;
use rusty_leveldb::mem_env::{MemEnv, Pick};
use rusty_leveldb::options::Options;
use rusty_leveldb::shell::{Command, Item, Reply, run};
use slow_history::BorrowedPair;
use slow_machine::{Item as SlowItem, SlowStore};
use std::alloc::Global;
use std::process::Abort;

/// The first log.
const LOG: &str = "db/000003.log";

/// A batch: whether it is synced, and its keys, each with a byte and how often its value has it, or
/// deleted.
type Batch = (bool, &'static [(&'static str, Option<(u8, usize)>)]);

/// The fifth almost fills the log's first block, and the sixth goes over its end.
const BATCHES: [Batch; 12] = [
    (false, &[("a", Some((b'1', 1)))]),
    (true, &[("b", Some((b'2', 1)))]),
    (false, &[("a", None)]),
    (false, &[]),
    (true, &[("c", Some((b'3', 32_634)))]),
    (false, &[("d", Some((b'4', 20)))]),
    (false, &[("b", None), ("a", Some((b'5', 2)))]),
    (true, &[("b", Some((b'6', 1)))]),
    (true, &[]),
    (false, &[("", Some((b'7', 1)))]),
    (false, &[("c", Some((b'8', 1))), ("d", None)]),
    (false, &[("e", Some((b'9', 0)))]),
];

fn value_of(alloc: Global, value: (u8, usize)) -> Result<Vec<u8>> {
    Ok(vec![in alloc; value.0; value.1]?)
}

fn item_of(alloc: Global, key: &str, value: Option<(u8, usize)>) -> Result<Item> {
    let key = bytes_of(alloc, key)?;
    Ok(match value {
        Some(value) => Item::Put(key, value_of(alloc, value)?),
        None => Item::Delete(key),
    })
}

fn command_of(alloc: Global, batch: &Batch) -> Result<Command> {
    let mut items = Vec::new(alloc);
    for (key, value) in batch.1 {
        items.push(item_of(alloc, key, *value)?)?;
    }
    Ok(Command::Write {
        sync: batch.0,
        items,
    })
}

fn slow_item(alloc: Global, key: &str, value: Option<(u8, usize)>) -> Result<SlowItem> {
    let value = match value {
        Some(value) => Some(value_of(alloc, value)?),
        None => None,
    };
    let key = bytes_of(alloc, key)?;
    Ok(SlowItem { key, value })
}

fn slow_items(alloc: Global, batch: &Batch) -> Result<Vec<SlowItem>> {
    let mut items = Vec::new(alloc);
    for (key, value) in batch.1 {
        items.push(slow_item(alloc, key, *value)?)?;
    }
    Ok(items)
}

/// The disk after these batches.
fn written(alloc: Global, batches: &[Batch]) -> Result<MemEnv> {
    let mut env = MemEnv::new(alloc);
    let mut commands = Vec::new(alloc);
    for batch in batches {
        commands.push(command_of(alloc, batch)?)?;
    }
    let mut replies = Vec::new(alloc);
    run(&mut env, "db", Options::default(), &commands, &mut replies)?;
    Ok(env)
}

/// What may be found after these batches and a crash.
fn allowed(alloc: Global, batches: &[Batch]) -> Result<SlowStore> {
    let mut slow = SlowStore::new(alloc)?;
    slow.opened()?;
    for batch in batches {
        slow.wrote(&slow_items(alloc, batch)?, batch.0)?;
    }
    slow.crashed()?;
    slow.opened()?;
    Ok(slow)
}

/// What a store replies for each key.
fn look_up_all(alloc: Global, env: &mut MemEnv) -> Result<Vec<Reply>> {
    let mut replies = Vec::new(alloc);
    run(
        env,
        "db",
        Options::default(),
        &look_ups(alloc, 6)?,
        &mut replies,
    )?;
    Ok(replies)
}

fn pick(alloc: Global, tail: &[u8]) -> Result<Pick> {
    let mut tails = Vec::new(alloc);
    tails.push((String::from_str(alloc, LOG)?, Vec::from_slice(alloc, tail)?))?;
    Ok(Pick {
        tails,
        after: false,
    })
}

/// Whether the later replies are the earlier ones, but for the last key, which now has this value.
fn has_only_changed_last(before: &[Reply], after: &[Reply], value: &[u8]) -> bool {
    let (Some((_, before)), Some((last, after))) = (before.split_last(), after.split_last()) else {
        return false;
    };
    let is_changed = matches!(last, Reply::Value(found) if found.as_slice() == value);
    is_changed && are_same(before, after)
}

/// Gives the store one synced batch, in which the last key has a new value, and returns whether it
/// was written.
fn write_last(alloc: Global, env: &mut MemEnv) -> Result<bool> {
    let mut commands = Vec::new(alloc);
    commands.push(command_of(alloc, &(true, &[("e", Some((b'x', 3)))]))?)?;
    let mut replies = Vec::new(alloc);
    run(env, "db", Options::default(), &commands, &mut replies)?;
    Ok(matches!(&replies[..], [Reply::Done]))
}

/// Whether the store takes a synced batch, which alone is found to be new after a crash.
fn goes_on(alloc: Global, env: &mut MemEnv, found: &[Reply]) -> Result<bool> {
    let is_written = write_last(alloc, env)?;
    let none = Pick {
        tails: Vec::new(alloc),
        after: false,
    };
    let mut left = env.crashed(alloc, &none)?;
    let later = look_up_all(alloc, &mut left)?;
    Ok(is_written && has_only_changed_last(found, &later, b"xxx"))
}

/// After a crash with this tail an allowed map is found, and then the store takes a synced batch,
/// which is found after a second crash.
fn crash_and_go_on(
    rt: &impl Abort,
    alloc: Global,
    env: &MemEnv,
    tail: &[u8],
    maps: &[Vec<BorrowedPair<'_>>],
) -> Result<()> {
    let mut left = env.crashed(alloc, &pick(alloc, tail)?)?;
    let found = look_up_all(alloc, &mut left)?;
    assert!(rt; is_any_map(maps, &found), "a tail of {}", tail.len());
    assert!(rt;
        goes_on(alloc, &mut left, &found)?,
        "after a tail of {}",
        tail.len()
    );
    Ok(())
}

/// A crash that leaves each prefix of the log's unsynced bytes, or one of so many of these and all
/// of them.
fn crash_with_each_tail(
    rt: &impl Abort,
    alloc: Global,
    env: &MemEnv,
    unsynced: &[u8],
    maps: &[Vec<BorrowedPair<'_>>],
    every: usize,
) -> Result<()> {
    for end in 0..=unsynced.len() {
        if end % every == 0 || end == unsynced.len() {
            crash_and_go_on(rt, alloc, env, &unsynced[..end], maps)?;
        }
    }
    Ok(())
}

/// A crash that leaves all unsynced bytes, of which the last is one higher.
fn crash_with_a_wrong_byte(
    rt: &impl Abort,
    alloc: Global,
    env: &MemEnv,
    unsynced: &[u8],
    maps: &[Vec<BorrowedPair<'_>>],
) -> Result<()> {
    let mut raised = Vec::from_slice(alloc, unsynced)?;
    if let Some(last) = raised.last_mut() {
        *last = last.wrapping_add(1);
        crash_and_go_on(rt, alloc, env, &raised, maps)?;
    }
    Ok(())
}

/// The bytes of the log that aren't durable.
fn unsynced_in(rt: &impl Abort, alloc: Global, env: &mut MemEnv) -> Result<Vec<u8>> {
    let bytes = read_file(alloc, env, LOG)?;
    let kept = env.crashed(alloc, &pick(alloc, b"")?)?.size_of(LOG)?;
    assert!(rt; kept <= bytes.len());
    Ok(Vec::from_slice(alloc, &bytes[kept..])?)
}

fn crash_after(rt: &impl Abort, alloc: Global, batches: &[Batch], every: usize) -> Result<()> {
    let mut env = written(alloc, batches)?;
    let unsynced = unsynced_in(rt, alloc, &mut env)?;
    let slow = allowed(alloc, batches)?;
    let maps = slow.maps(&DefaultCmp)?;
    crash_with_each_tail(rt, alloc, &env, &unsynced, &maps, every)?;
    crash_with_a_wrong_byte(rt, alloc, &env, &unsynced, &maps)
}

/// Crashes after each of the batches, with one of so many tails.
pub fn crash_after_each(rt: &impl Abort, alloc: Global, every: usize) -> Result<()> {
    for count in 0..=BATCHES.len() {
        crash_after(rt, alloc, &BATCHES[..count], every)?;
    }
    Ok(())
}

#[test]
fn crashes_keep_a_prefix(rt: HostRuntime) -> Result<()> {
    crash_after_each(&rt, rt.alloc(), 7)
}

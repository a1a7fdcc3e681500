//! Calls of a store: what is asked, what it returns, and what the slow store says to that.
use super::replies::bytes_of;
use leveldb_base::cmp::DefaultCmp;
use leveldb_base::error::{Result, Status, StatusCode};
use rusty_leveldb::shell::{Command, Item, Move as ShellMove, Reply, Step as ShellStep};
use slow_history::{Landing, Move};
use slow_machine::{Found, Item as SlowItem, SlowStore};
use std::alloc::Global;

/// A key, and its new value, or none to delete it.
pub type Change = (&'static str, Option<&'static str>);

/// What is asked of a store.
#[derive(Clone, Copy, Debug)]
pub enum Step {
    Open,
    Put(&'static str, &'static str),
    Delete(&'static str),
    Write(bool, &'static [Change]),
    Get(&'static str),
    Snap,
    GetAt(usize, &'static str),
    Release(usize),
    Walk(Option<usize>, &'static [Move<'static>]),
    /// Compacts the range between two keys; an empty one is an open end.
    Compact(&'static str, &'static str),
    Flush,
    Close,
    Abandon,
}

/// A call that returned, and the moment at which it did.
#[derive(Drop)]
pub struct Call {
    pub step: Step,
    pub reply: Reply,
    pub moment: u64,
}

/// A look-up of each of these keys, and then these walks over the store as it is now.
pub fn asked_of(
    alloc: Global,
    keys: &[&'static str],
    walks: &[&'static [Move<'static>]],
) -> Result<Vec<Step>> {
    let mut steps = Vec::new(alloc);
    for key in keys {
        steps.push(Step::Get(*key))?;
    }
    for moves in walks {
        steps.push(Step::Walk(None, *moves))?;
    }
    Ok(steps)
}

fn item_of(alloc: Global, change: &Change) -> Result<Item> {
    let key = bytes_of(alloc, change.0)?;
    Ok(match change.1 {
        Some(value) => Item::Put(key, bytes_of(alloc, value)?),
        None => Item::Delete(key),
    })
}

fn write_of(alloc: Global, sync: bool, changes: &[Change]) -> Result<Command> {
    let mut items = Vec::new(alloc);
    for change in changes {
        items.push(item_of(alloc, change)?)?;
    }
    Ok(Command::Write { sync, items })
}

fn shell_move(alloc: Global, one: &Move<'_>) -> Result<ShellMove> {
    Ok(match one {
        Move::First => ShellMove::First,
        Move::Next => ShellMove::Next,
        Move::Prev => ShellMove::Prev,
        Move::Seek(key) => ShellMove::Seek(Vec::from_slice(alloc, key)?),
    })
}

/// Moves of an iterator as they are asked of a store.
pub fn shell_moves(alloc: Global, moves: &[Move<'_>]) -> Result<Vec<ShellMove>> {
    let mut asked = Vec::new(alloc);
    for one in moves {
        asked.push(shell_move(alloc, one)?)?;
    }
    Ok(asked)
}

/// The command of a step between opening and abandoning.
fn command_of(alloc: Global, step: &Step) -> Result<Option<Command>> {
    Ok(Some(match step {
        Step::Open | Step::Abandon => return Ok(None),
        Step::Put(key, value) => Command::Put(bytes_of(alloc, key)?, bytes_of(alloc, value)?),
        Step::Delete(key) => Command::Delete(bytes_of(alloc, key)?),
        Step::Write(sync, changes) => write_of(alloc, *sync, changes)?,
        Step::Get(key) => Command::Get(bytes_of(alloc, key)?),
        Step::Snap => Command::Snap,
        Step::GetAt(number, key) => Command::GetAt(*number, bytes_of(alloc, key)?),
        Step::Release(number) => Command::Release(*number),
        Step::Walk(at, moves) => Command::Walk(*at, shell_moves(alloc, moves)?),
        Step::Compact(from, to) => {
            Command::Compact(bytes_of(alloc, from)?, bytes_of(alloc, to)?)
        }
        Step::Flush => Command::Flush,
        Step::Close => Command::Close,
    }))
}

pub fn commands_of(alloc: Global, steps: &[Step]) -> Result<Vec<Command>> {
    let mut commands = Vec::new(alloc);
    for step in steps {
        if let Some(command) = command_of(alloc, step)? {
            commands.push(command)?;
        }
    }
    Ok(commands)
}

fn slow_item(alloc: Global, key: &str, value: Option<&str>) -> Result<SlowItem> {
    let value = match value {
        Some(value) => Some(bytes_of(alloc, value)?),
        None => None,
    };
    let key = bytes_of(alloc, key)?;
    Ok(SlowItem { key, value })
}

fn slow_items(alloc: Global, changes: &[Change]) -> Result<Vec<SlowItem>> {
    let mut items = Vec::new(alloc);
    for (key, value) in changes {
        items.push(slow_item(alloc, key, *value)?)?;
    }
    Ok(items)
}

/// The changes that a step writes and whether it syncs them, if it is a write.
pub fn written_by(alloc: Global, step: &Step) -> Result<Option<(Vec<SlowItem>, bool)>> {
    Ok(match step {
        Step::Put(key, value) => Some((slow_items(alloc, &[(key, Some(value))])?, false)),
        Step::Delete(key) => Some((slow_items(alloc, &[(key, None)])?, false)),
        Step::Write(sync, changes) => Some((slow_items(alloc, changes)?, *sync)),
        _ => None,
    })
}

/// A crash comes inside this step.
pub fn crash_inside(slow: &mut SlowStore, alloc: Global, step: &Step) -> Result<()> {
    match written_by(alloc, step)? {
        Some((items, _)) => slow.crashed_in_write(&items),
        None => slow.crashed(),
    }
}

/// Whether the error says that an earlier call broke the store.
fn says_broken(status: &Status) -> bool {
    match &status.err {
        Some(text) => text.as_str() == "IOError: reopen the store",
        None => false,
    }
}

/// A step failed: since the store was closed or broken, or since the device failed, or out of
/// memory.
fn judge_failure(slow: &mut SlowStore, alloc: Global, step: &Step, status: &Status) -> Result<()> {
    if says_broken(status) {
        return slow.was_broken();
    }
    if status.code == StatusCode::InvalidArgument {
        return slow.was_closed();
    }
    match (written_by(alloc, step)?, step) {
        (Some((items, _)), _) => slow.refused_write(&items, true),
        (None, Step::Compact(_, _)) => slow.refused_compaction(),
        // It found no memory itself, so that nothing has changed, or the device found none.
        (None, Step::Flush) if status.code == StatusCode::OutOfMemory => {
            slow.refused_write(&[], true)
        }
        (None, _) => slow.broke(),
    }
}

fn judge_success(slow: &mut SlowStore, alloc: Global, step: &Step) -> Result<()> {
    match step {
        Step::Open => slow.opened(),
        Step::Compact(_, _) => slow.compacted(),
        Step::Flush => slow.flushed(),
        Step::Close => slow.closed(),
        _ => match written_by(alloc, step)? {
            Some((items, sync)) => slow.wrote(&items, sync),
            None => Ok(()),
        },
    }
}

/// A read failed. Since the device failed, or out of memory, that changes nothing.
fn judge_failed_read(slow: &mut SlowStore, at: Option<usize>, status: &Status) -> Result<()> {
    if status.code != StatusCode::InvalidArgument {
        return Ok(());
    }
    match at {
        Some(number) => slow.was_not_held(number as u64),
        None => slow.was_closed(),
    }
}

/// A look-up returned this, now or at a snapshot.
fn judge_look_up(slow: &mut SlowStore, at: Option<usize>, key: &str, reply: &Reply) -> Result<()> {
    let number = at.map(|number| number as u64);
    match reply {
        Reply::Value(value) => slow.found(number, key.as_bytes(), &Found::Value(value.as_slice())),
        Reply::Nothing => slow.found(number, key.as_bytes(), &Found::Nothing),
        Reply::Refused(status) => judge_failed_read(slow, at, status),
        _ => {
            slow.was_impossible();
            Ok(())
        }
    }
}

fn landing_of(led: &ShellStep) -> Landing<'_> {
    match led {
        ShellStep::At(key, value) => Landing::At(key.as_slice(), value.as_slice()),
        ShellStep::Invalid => Landing::Nowhere,
        ShellStep::Refused(_) => Landing::Refused,
    }
}

/// Where the moves of a walk led.
pub fn landings_of<'a>(alloc: Global, steps: &'a [ShellStep]) -> Result<Vec<Landing<'a>>> {
    let mut landings = Vec::new(alloc);
    for led in steps {
        landings.push(landing_of(led))?;
    }
    Ok(landings)
}

/// A walk returned this, now or at a snapshot.
fn judge_walk(
    slow: &mut SlowStore,
    alloc: Global,
    at: Option<usize>,
    moves: &[Move<'_>],
    reply: &Reply,
) -> Result<()> {
    match reply {
        Reply::Walk(steps) => {
            let number = at.map(|number| number as u64);
            slow.walked(&DefaultCmp, number, moves, &landings_of(alloc, steps)?)
        }
        Reply::Refused(status) => judge_failed_read(slow, at, status),
        _ => {
            slow.was_impossible();
            Ok(())
        }
    }
}

/// A snapshot was asked for. Out of memory changes nothing.
fn judge_snapshot(slow: &mut SlowStore, reply: &Reply) -> Result<()> {
    match reply {
        Reply::Snapshot(number) => slow.gave_snapshot(*number as u64),
        Reply::Refused(status) => judge_failed_read(slow, None, status),
        _ => {
            slow.was_impossible();
            Ok(())
        }
    }
}

/// A snapshot was released. That takes no memory and no call of the device.
fn judge_release(slow: &mut SlowStore, number: usize, reply: &Reply) -> Result<()> {
    match reply {
        Reply::Done => slow.released(number as u64),
        Reply::Refused(status) if status.code == StatusCode::InvalidArgument => {
            slow.was_not_held(number as u64)
        }
        _ => {
            slow.was_impossible();
            Ok(())
        }
    }
}

/// A step returned this. An opening that fails leaves the store closed, and whatever `abandon`
/// returns the store is closed.
pub fn judge(slow: &mut SlowStore, alloc: Global, step: &Step, reply: &Reply) -> Result<()> {
    match (step, reply) {
        (Step::Abandon, _) => slow.abandoned(),
        (Step::Get(key), _) => judge_look_up(slow, None, key, reply),
        (Step::GetAt(number, key), _) => judge_look_up(slow, Some(*number), key, reply),
        (Step::Walk(at, moves), _) => judge_walk(slow, alloc, *at, moves, reply),
        (Step::Snap, _) => judge_snapshot(slow, reply),
        (Step::Release(number), _) => judge_release(slow, *number, reply),
        (Step::Open, Reply::Refused(_)) => slow.was_closed(),
        (_, Reply::Refused(status)) => judge_failure(slow, alloc, step, status),
        _ => judge_success(slow, alloc, step),
    }
}

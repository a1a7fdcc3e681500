//! The tables that a store has open: with room for one of three, and for all of them.
use super::rooms::{self, Act};
use super::stores::{buffered, opened};
use leveldb_base::error::Result;
use leveldb_disks::mem_env::RecordEnv;
use std::alloc::Global;
use std::process::Abort;

/// How many files a store may have open, of which ten are no tables: one table then, and the
/// default.
const ROOM_FOR_ONE: usize = 11;

const ROOM_FOR_ALL: usize = 1 << 10;

/// A table in each of three levels, and an empty memtable. The table of level 1 changes keys of the
/// one of level 2, and that of level 0 keys of both. A look-up of e goes through two tables, since
/// it is in the range of the newest.
const THREE_TABLES: &[Act] = &[
    Act::Write(&[
        ("a", Some("1")),
        ("b", Some("2")),
        ("c", Some("3")),
        ("d", Some("4")),
    ]),
    Act::Write(&[("b", Some("5")), ("c", None), ("e", Some("6"))]),
    Act::Write(&[("c", Some("7")), ("d", None), ("f", Some("8"))]),
    Act::Write(&[]),
    Act::HasLevels(
        "level 0: 1 files, 202 bytes ([(9, 202)]); level 1: 1 files, 202 bytes ([(7, 202)]); \
        level 2: 1 files, 216 bytes ([(5, 216)]); ",
    ),
];

/// Plays this on a store of three tables that may have so many files open.
fn play_on(
    rt: &impl Abort,
    alloc: Global,
    env: &mut RecordEnv,
    max_open_files: usize,
    acts: &[Act],
) -> Result<()> {
    let mut options = buffered(1);
    options.max_open_files = max_open_files;
    let mut engine = opened(alloc, env, options)?;
    rooms::play_on(rt, alloc, env, &mut engine, THREE_TABLES)?;
    rooms::play_on(rt, alloc, env, &mut engine, acts)?;
    engine.abandon(env)
}

/// Plays this on a device of its own.
fn play(rt: &impl Abort, alloc: Global, max_open_files: usize, acts: &[Act]) -> Result<()> {
    play_on(rt, alloc, &mut RecordEnv::new(alloc), max_open_files, acts)
}

const IN_ANY_ORDER: &[Act] = &[
    Act::Finds("gfedcba", "-86-751"),
    Act::Finds("aabacaebbcbecceea", "11517165575677661"),
    Act::Finds("abcdefg", "157-68-"),
];

/// All keys are found whichever table was read before.
#[test]
fn keys_in_any_order(rt: HostRuntime) -> Result<()> {
    play(&rt, rt.alloc(), ROOM_FOR_ONE, IN_ANY_ORDER)?;
    play(&rt, rt.alloc(), ROOM_FOR_ALL, IN_ANY_ORDER)
}

const LOST_WHILE_OPEN: &[Act] = &[
    Act::Finds("abcdefg", "157-68-"),
    Act::Lose("db/000007.ldb"),
    Act::FindsInMemory("gfedcba", "-86-751"),
];

/// The table of level 1 is closed when that of level 2 is opened.
const LOST_AND_CLOSED: &[Act] = &[
    Act::Finds("b", "5"),
    Act::Lose("db/000007.ldb"),
    Act::FindsInMemory("b", "5"),
    Act::Finds("a", "1"),
    Act::FindsDamage("b"),
    Act::FindsDamage("e"),
    Act::Finds("acdfg", "17-8-"),
    Act::FindsDamage("b"),
];

/// A table whose file is deleted behind the store's back is read on as long as it is open. Then it
/// is an error, and no older value is found.
#[test]
fn lost_tables(rt: HostRuntime) -> Result<()> {
    play(&rt, rt.alloc(), ROOM_FOR_ALL, LOST_WHILE_OPEN)?;
    play(&rt, rt.alloc(), ROOM_FOR_ONE, LOST_AND_CLOSED)
}

/// One byte of the table of level 1 is wrong before it is opened.
fn damage(rt: &impl Abort, alloc: Global, max_open_files: usize, at: usize) -> Result<()> {
    let acts = [
        Act::Damage("000007.ldb", at),
        Act::FindsDamage("b"),
        Act::FindsDamage("b"),
        Act::FindsDamage("e"),
        Act::Finds("acdfg", "17-8-"),
        Act::FindsDamage("e"),
        Act::FindsDamage("b"),
    ];
    play(rt, alloc, max_open_files, &acts)
}

/// Whichever byte of a table is wrong, of its footer too (one of so many bytes is tried), each
/// look-up of its keys is an error each time, and all keys of other tables are found.
pub fn damage_each(rt: &impl Abort, alloc: Global, every: usize) -> Result<()> {
    for at in 0..202 {
        if at % every == 0 {
            damage(rt, alloc, ROOM_FOR_ONE, at)?;
            damage(rt, alloc, ROOM_FOR_ALL, at)?;
        }
    }
    Ok(())
}

#[test]
fn damaged_tables(rt: HostRuntime) -> Result<()> {
    damage_each(&rt, rt.alloc(), 5)
}

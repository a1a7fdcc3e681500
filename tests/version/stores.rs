//! What the files of small stores hold, by the slow reading of them: the expected contents are
//! written by hand.
use super::store_files::{
    A, B, C, NEW_MANIFEST, NEXT_MANIFEST, PAIR_EDIT, PAIR_TABLE, PAST_EDIT, Row, TABLE, TABLE_EDIT,
    are_rows, bytes_of, put, put_log, read, store_of,
};
use leveldb_base::error::{Result, StatusCode};
use leveldb_base::types::SequenceNumber;
use leveldb_env::mem_env::MemEnv;
use std::alloc::Global;
use std::process::Abort;
use support::failed_with;

/// What is done to the files of a store, or asked of them.
#[derive(Clone, Copy)]
enum Act {
    /// Makes a file of these bytes.
    Put(&'static str, &'static [u8]),
    /// Makes a log of these rows, each in a batch of its own.
    Log(&'static str, &'static [Row]),
    /// Cuts a file to this many bytes.
    Cut(&'static str, usize),
    /// Puts another byte in the place of a file's last one.
    End(&'static str, u8),
    /// A file has this many bytes.
    HasSize(&'static str, usize),
    /// The files hold these rows, up to this last number.
    Holds(&'static [Row], SequenceNumber),
    /// They are damaged.
    IsDamaged,
    /// They are no store, and no damaged one.
    IsNone,
}

fn cut(alloc: Global, env: &mut MemEnv, name: &str, size: usize) -> Result<()> {
    let mut bytes = bytes_of(alloc, env, name)?;
    bytes.truncate(size);
    put(alloc, env, name, bytes.as_slice())
}

fn end(alloc: Global, env: &mut MemEnv, name: &str, last: u8) -> Result<()> {
    let mut bytes = bytes_of(alloc, env, name)?;
    bytes.pop();
    bytes.push(last)?;
    put(alloc, env, name, bytes.as_slice())
}

fn change(alloc: Global, env: &mut MemEnv, act: &Act) -> Result<()> {
    match act {
        Act::Put(name, bytes) => put(alloc, env, name, bytes),
        Act::Log(name, rows) => put_log(alloc, env, name, rows),
        Act::Cut(name, size) => cut(alloc, env, name, *size),
        Act::End(name, last) => end(alloc, env, name, *last),
        _ => Ok(()),
    }
}

/// Does what is to be done, and returns whether what is asked is so.
fn is_right(alloc: Global, env: &mut MemEnv, act: &Act) -> Result<bool> {
    match act {
        Act::HasSize(name, size) => Ok(bytes_of(alloc, env, name)?.len() == *size),
        Act::Holds(rows, last) => Ok(are_rows(read(alloc, env)?, rows, *last)),
        Act::IsDamaged => failed_with(read(alloc, env), StatusCode::Corruption),
        Act::IsNone => Ok(read(alloc, env)?.is_none()),
        _ => {
            change(alloc, env, act)?;
            Ok(true)
        }
    }
}

/// Does and asks all this, one after another.
fn play(rt: &(impl Abort + AllocGlobal), env: &mut MemEnv, acts: &[Act]) -> Result<()> {
    for (at, act) in acts.iter().enumerate() {
        assert!(rt; is_right(rt.alloc(), env, act)?, "row {at}");
    }
    Ok(())
}

/// Does and asks all this of a store of manifest 1, which is a new store's and then another edit.
fn play_after(rt: &(impl Abort + AllocGlobal), edit: &[u8], acts: &[Act]) -> Result<()> {
    play(rt, &mut store_of(rt.alloc(), edit)?, acts)
}

const NO_STORE: &[Act] = &[
    Act::IsNone,
    Act::Put("MANIFEST-000001", NEW_MANIFEST),
    Act::IsNone,
    Act::Put("000003.log", b""),
    Act::IsDamaged,
];

#[test]
fn no_store(rt: HostRuntime) -> Result<()> {
    play(&rt, &mut MemEnv::new(rt.alloc()), NO_STORE)
}

const NEW_STORE: &[Act] = &[
    Act::Holds(&[], 0),
    Act::Put("000003.log", b""),
    Act::Holds(&[], 0),
];

/// A new store has no log yet, and then an empty one.
#[test]
fn new_store(rt: HostRuntime) -> Result<()> {
    play_after(&rt, b"", NEW_STORE)
}

/// The last entry of a log of 72 bytes.
const THIRD: Row = (3, b"c", Some(b"3"));

const TORN_LOG: &[Act] = &[
    Act::Log("000003.log", &[A, B, THIRD]),
    Act::HasSize("000003.log", 72),
    Act::Holds(&[A, B, THIRD], 3),
    Act::End("000003.log", 0x34),
    Act::HasSize("000003.log", 72),
    Act::Holds(&[A, B], 2),
    Act::Cut("000003.log", 48),
    Act::Holds(&[A, B], 2),
];

/// What a crash leaves of a log whose last batch isn't kept: nothing of that one, all of it, or
/// another last byte.
#[test]
fn torn_log(rt: HostRuntime) -> Result<()> {
    play_after(&rt, b"", TORN_LOG)
}

const AFTER_A_BAD_END: &[Act] = &[
    Act::Put("000003.log", b"x"),
    Act::Put("000004.log", b""),
    Act::Holds(&[], 0),
    Act::Put("000004.log", b"x"),
    Act::IsDamaged,
];

/// After a log with a bad end the later ones are empty.
#[test]
fn after_a_bad_end(rt: HostRuntime) -> Result<()> {
    play_after(&rt, b"", AFTER_A_BAD_END)
}

const REOPENED: &[Act] = &[
    Act::Put("000004.ldb", PAIR_TABLE),
    Act::Log("000003.log", &[A, B, C]),
    Act::Log("000005.log", &[C]),
    Act::Holds(&[A, B, C], 3),
];

/// A store that was opened again after a torn log: what that one had is in a table.
#[test]
fn reopened(rt: HostRuntime) -> Result<()> {
    play_after(&rt, PAIR_EDIT, REOPENED)
}

const WITH_A_TABLE: &[Act] = &[
    Act::Put("000005.sst", TABLE),
    Act::Log("000004.log", &[B]),
    Act::IsDamaged,
    Act::Put("000005.ldb", TABLE),
    Act::Holds(&[A, B], 2),
];

/// The table has what log 3 had. Under another name that tables may have it is missing.
#[test]
fn with_a_table(rt: HostRuntime) -> Result<()> {
    play_after(&rt, TABLE_EDIT, WITH_A_TABLE)
}

const TORN_MANIFEST: &[Act] = &[
    Act::HasSize("MANIFEST-000001", 81),
    Act::Cut("MANIFEST-000001", 80),
    Act::Put("000005.ldb", b""),
    Act::Log("000003.log", &[A]),
    Act::Log("000004.log", &[B]),
    Act::Holds(&[A, B], 2),
];

/// Without its last byte the second edit isn't read, nor its table, and all logs are replayed.
#[test]
fn torn_manifest(rt: HostRuntime) -> Result<()> {
    play_after(&rt, TABLE_EDIT, TORN_MANIFEST)
}

const NEW_MANIFEST_IS_USED: &[Act] = &[
    Act::Log("000003.log", &[A]),
    Act::Put("MANIFEST-000004", NEXT_MANIFEST),
    Act::Cut("MANIFEST-000004", 35),
    Act::Holds(&[A], 1),
    Act::Put("CURRENT", b"MANIFEST-000004\n"),
    Act::IsDamaged,
    Act::Put("MANIFEST-000004", NEXT_MANIFEST),
    Act::Holds(&[A], 1),
];

/// A new manifest is read once `CURRENT` names it, and shows the same. Its first edit alone has no
/// numbers.
#[test]
fn next_manifest(rt: HostRuntime) -> Result<()> {
    play_after(&rt, b"", NEW_MANIFEST_IS_USED)
}

/// A log under another encoding of its number is none of the store's.
#[test]
fn misnamed_log(rt: HostRuntime) -> Result<()> {
    play_after(&rt, b"", &[Act::Put("3.log", b""), Act::IsDamaged])
}

/// The rows of a log beside a table that has number 1: one that begins at 0, two that don't rise,
/// one that isn't above the table's, one past the greatest number.
const UNFIT_NUMBERS: &[Act] = &[
    Act::Put("000005.ldb", TABLE),
    Act::Log("000004.log", &[(0, b"b", None)]),
    Act::IsDamaged,
    Act::Log("000004.log", &[(3, b"b", None), (3, b"c", None)]),
    Act::IsDamaged,
    Act::Log("000004.log", &[(1, b"b", None)]),
    Act::IsDamaged,
    Act::Log("000004.log", &[(1 << 56, b"b", None)]),
    Act::IsDamaged,
];

#[test]
fn unfit_numbers(rt: HostRuntime) -> Result<()> {
    play_after(&rt, TABLE_EDIT, UNFIT_NUMBERS)
}

/// Two edits after a new store's: a last number that is too great, and one that sets another; and
/// tables in two levels that have one entry.
const UNFIT_EDITS: [(&[u8], &[u8]); 2] = [(PAST_EDIT, TABLE_EDIT), (TABLE_EDIT, PAIR_EDIT)];

const WITH_BOTH_TABLES: &[Act] = &[
    Act::Put("000004.ldb", PAIR_TABLE),
    Act::Put("000005.ldb", TABLE),
    Act::IsDamaged,
];

#[test]
fn unfit_edits(rt: HostRuntime) -> Result<()> {
    for (first, second) in &UNFIT_EDITS {
        let mut edits = Vec::from_slice(rt.alloc(), first)?;
        edits.extend_from_slice(second)?;
        play_after(&rt, edits.as_slice(), WITH_BOTH_TABLES)?;
    }
    Ok(())
}

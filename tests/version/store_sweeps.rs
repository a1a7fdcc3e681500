//! Each file of a small store, cut to each length and with each of its bytes raised by one. What
//! the files then hold is written by hand.
//!
//! The store has manifest 1 with the edit of a table, the table, and two logs of two batches each.
//! A second manifest is beside the first.
use super::store_files::{
    A, B, C, LATER_MANIFEST, Row, TABLE, TABLE_EDIT, are_rows, bytes_of, put, put_log, read,
    store_of,
};
use leveldb_base::error::{Result, StatusCode};
use leveldb_base::types::SequenceNumber;
use leveldb_env::mem_env::MemEnv;
use std::alloc::Global;
use std::process::Abort;
use support::failed_with;

const D: Row = (4, b"a", Some(b"4"));

const E: Row = (5, b"b", None);

fn small_store(alloc: Global) -> Result<MemEnv> {
    let mut env = store_of(alloc, TABLE_EDIT)?;
    put(alloc, &mut env, "MANIFEST-000002", LATER_MANIFEST)?;
    put(alloc, &mut env, "000005.ldb", TABLE)?;
    put_log(alloc, &mut env, "000004.log", &[B, C])?;
    put_log(alloc, &mut env, "000006.log", &[D, E])?;
    Ok(env)
}

// ---- answers

/// The rows of a store and its greatest number, or none where the files are no store.
type Answer = Option<(&'static [Row], SequenceNumber)>;

/// How many changes of a file, one after another, have an answer.
type Run = (usize, Answer);

const DAMAGE: Answer = None;

const WHOLE: Answer = Some((&[A, B, C, D, E], 5));

/// By the first edit alone there is no table, and both logs are replayed.
const WITHOUT_TABLE: Answer = Some((&[B, C, D, E], 5));

/// By the second manifest the last log alone is read.
const LAST_LOG: Answer = Some((&[D, E], 5));

/// Each file, and what there is when it is cut to its first bytes: none of them, one, and so on up
/// to all.
///
/// `CURRENT` is whole or damaged. The first edit of the manifest ends at 41, and without that one
/// there is none. A table has the size that its edit says. The first log has its batches up to 24
/// and 46, and is cut between two bytes of one of them where it ends badly, which the second log
/// must not follow. The second log has those that are whole.
const CUTS: [(&str, &[Run]); 5] = [
    ("CURRENT", &[(16, DAMAGE), (1, WHOLE)]),
    (
        "MANIFEST-000001",
        &[(41, DAMAGE), (40, WITHOUT_TABLE), (1, WHOLE)],
    ),
    ("000005.ldb", &[(177, DAMAGE), (1, WHOLE)]),
    (
        "000004.log",
        &[
            (1, Some((&[A, D, E], 5))),
            (23, DAMAGE),
            (1, Some((&[A, B, D, E], 5))),
            (21, DAMAGE),
            (1, WHOLE),
        ],
    ),
    (
        "000006.log",
        &[
            (24, Some((&[A, B, C], 3))),
            (22, Some((&[A, B, C, D], 4))),
            (1, WHOLE),
        ],
    ),
];

/// Each file, and what there is when one of its bytes is raised by one: the first, the second, and
/// so on.
///
/// `CURRENT` names the second manifest where its last digit is raised, and else none that is there.
/// A record of manifest or log is no more read where any of its bytes is raised, nor is what comes
/// after it. Of the table all but the filter is read, at 26 to 48.
const RAISES: [(&str, &[Run]); 5] = [
    ("CURRENT", &[(14, DAMAGE), (1, LAST_LOG), (1, DAMAGE)]),
    ("MANIFEST-000001", &[(41, DAMAGE), (40, WITHOUT_TABLE)]),
    ("000005.ldb", &[(26, DAMAGE), (23, WHOLE), (128, DAMAGE)]),
    ("000004.log", &[(46, DAMAGE)]),
    (
        "000006.log",
        &[(24, Some((&[A, B, C], 3))), (22, Some((&[A, B, C, D], 4)))],
    ),
];

// ---- changes

/// The prefixes of some bytes, from none to all.
fn cuts_of(alloc: Global, bytes: &[u8]) -> Result<Vec<Vec<u8>>> {
    let mut cuts = Vec::new(alloc);
    let mut cut = Vec::new(alloc);
    for byte in bytes {
        cuts.push(cut.clone()?)?;
        cut.push(*byte)?;
    }
    cuts.push(cut)?;
    Ok(cuts)
}

/// The bytes with one of them raised, from the first to the last.
fn raises_of(alloc: Global, bytes: &[u8]) -> Result<Vec<Vec<u8>>> {
    let mut raises = Vec::new(alloc);
    for at in 0..bytes.len() {
        let mut raised = Vec::from_slice(alloc, bytes)?;
        if let Some(byte) = raised.as_mut_slice().get_mut(at) {
            *byte = byte.wrapping_add(1);
        }
        raises.push(raised)?;
    }
    Ok(raises)
}

// ---- sweeps

/// Whether the files are read as an answer says.
fn is_read_as(alloc: Global, env: &mut MemEnv, answer: &Answer) -> Result<bool> {
    match answer {
        Some((rows, last)) => Ok(are_rows(read(alloc, env)?, rows, *last)),
        None => failed_with(read(alloc, env), StatusCode::Corruption),
    }
}

/// Whether a file with each of these texts has an answer.
fn have_answer(
    alloc: Global,
    env: &mut MemEnv,
    name: &str,
    texts: &[Vec<u8>],
    answer: &Answer,
) -> Result<bool> {
    for text in texts {
        put(alloc, env, name, text.as_slice())?;
        if !is_read_as(alloc, env, answer)? {
            return Ok(false);
        }
    }
    Ok(true)
}

/// Whether a file with these texts, one after another, has the answers of the runs, and there are
/// as many of both.
fn have_answers(
    alloc: Global,
    env: &mut MemEnv,
    name: &str,
    texts: &[Vec<u8>],
    runs: &[Run],
) -> Result<bool> {
    let mut rest = texts;
    for (count, answer) in runs {
        let Some((these, later)) = rest.split_at_checked(*count) else {
            return Ok(false);
        };
        if !have_answer(alloc, env, name, these, answer)? {
            return Ok(false);
        }
        rest = later;
    }
    Ok(rest.is_empty())
}

#[test]
fn cut_files(rt: HostRuntime) -> Result<()> {
    for (name, runs) in &CUTS {
        let mut env = small_store(rt.alloc())?;
        let bytes = bytes_of(rt.alloc(), &mut env, name)?;
        let cuts = cuts_of(rt.alloc(), bytes.as_slice())?;
        assert!(rt;
            have_answers(rt.alloc(), &mut env, name, cuts.as_slice(), runs)?,
            "{name}"
        );
    }
    Ok(())
}

#[test]
fn raised_bytes(rt: HostRuntime) -> Result<()> {
    for (name, runs) in &RAISES {
        let mut env = small_store(rt.alloc())?;
        let bytes = bytes_of(rt.alloc(), &mut env, name)?;
        let raises = raises_of(rt.alloc(), bytes.as_slice())?;
        assert!(rt;
            have_answers(rt.alloc(), &mut env, name, raises.as_slice(), runs)?,
            "{name}"
        );
    }
    Ok(())
}

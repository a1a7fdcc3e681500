//! What the crate's tests ask of its choices, of the same files.

use super::choices::missing;
use super::versions::{STORE, entry_key, version_of};
use bytes::Bytes;
use leveldb_base::cmp::DefaultCmp;
use leveldb_base::error::Result;
use leveldb_base::key_types::LookupKey;
use leveldb_base::types::FileNum;
use leveldb_version::version::GetStats;
use leveldb_version_set::compaction::Compaction;
use leveldb_version_set::compaction::pick::{compact_range, pick_compaction};
use std::alloc::Global;
use std::process::Abort;

const MAX_FILE_SIZE: usize = 2 << 20;

fn key_at(alloc: Global, user: &str, number: u64) -> Result<Bytes> {
    let key = LookupKey::new(alloc, user.as_bytes(), number)?;
    Ok(Bytes::copy_from_slice(alloc, key.internal_key())?)
}

/// The compaction that begins with a file that reads have chosen.
fn by_reads(alloc: Global, level: usize, num: FileNum) -> Result<Option<Compaction<DefaultCmp>>> {
    let mut version = version_of(alloc, &STORE)?;
    let stats = GetStats {
        file: Some((level, num)),
    };
    let mut left = 1000;
    while left > 0 && !version.update_stats(stats) {
        left -= 1;
    }
    pick_compaction(alloc, &version, &[], MAX_FILE_SIZE)
}

/// The compaction of a range, between two user keys.
fn by_range(
    alloc: Global,
    level: usize,
    from: &str,
    to: &str,
) -> Result<Option<Compaction<DefaultCmp>>> {
    let version = version_of(alloc, &STORE)?;
    let (from, to) = (key_at(alloc, from, 1000)?, key_at(alloc, to, 1010)?);
    compact_range(alloc, &version, level, &from, &to, MAX_FILE_SIZE)
}

/// The level of a compaction, and how many files it takes of it and of the next.
fn counts(compaction: &Option<Compaction<DefaultCmp>>) -> Option<(usize, usize, usize)> {
    let compaction = compaction.as_ref()?;
    Some((
        compaction.level(),
        compaction.num_inputs(0),
        compaction.num_inputs(1),
    ))
}

fn is_moved(compaction: &Option<Compaction<DefaultCmp>>) -> bool {
    compaction.as_ref().is_some_and(|it| it.is_trivial_move())
}

/// The crate sets a score by hand; here reads choose the file of level 0.
#[test]
fn picked(rt: HostRuntime) -> Result<()> {
    let alloc = rt.alloc();
    assert!(rt; counts(&by_reads(alloc, 0, 1)?) == Some((0, 2, 1)));
    assert!(rt; counts(&by_reads(alloc, 1, 3)?) == Some((1, 3, 1)));
    Ok(())
}

#[test]
fn ranges(rt: HostRuntime) -> Result<()> {
    let alloc = rt.alloc();
    for (level, from, to, wanted) in [
        (0, "000", "ab", (0, 2, 1)),
        (0, "000", "zzz", (0, 2, 1)),
        (1, "dab", "eab", (1, 3, 1)),
        (2, "fab", "fba", (2, 1, 0)),
    ] {
        let compaction = by_range(alloc, level, from, to)?;
        assert!(rt; counts(&compaction) == Some(wanted));
        assert!(rt; !is_moved(&compaction));
    }
    assert!(rt; by_range(alloc, 2, "zaa", "zzz")?.is_none());
    Ok(())
}

/// The crate makes a compaction of a range one that isn't by hand; here reads choose its file.
#[test]
fn moves_and_cuts(rt: HostRuntime) -> Result<()> {
    let alloc = rt.alloc();
    assert!(rt; is_moved(&by_reads(alloc, 2, 6)?));
    assert!(rt; !is_moved(&by_reads(alloc, 1, 3)?));

    let Some(mut compaction) = by_range(alloc, 0, "000", "zzz")? else {
        return missing(&rt);
    };
    for (user, number) in [("000", 1000), ("abc", 1010), ("zzz", 1010)] {
        assert!(rt; !compaction.should_stop_before(&key_at(alloc, user, number)?));
    }
    assert!(rt; compaction.is_base_level_for(b"aaa"));
    assert!(rt; !compaction.is_base_level_for(b"hac"));
    Ok(())
}

#[test]
fn inputs_and_edit(rt: HostRuntime) -> Result<()> {
    let alloc = rt.alloc();
    let Some(mut compaction) = by_range(alloc, 0, "000", "zzz")? else {
        return missing(&rt);
    };
    for (parent, index, num) in [(0, 0, 1), (0, 1, 2), (1, 0, 3)] {
        assert!(rt;
            compaction
                .input(parent, index)
                .is_some_and(|file| file.1.num == num)
        );
    }
    assert!(rt; compaction.input_iters(alloc)?.len() == 3);
    compaction.add_input_deletions()?;
    assert!(rt; compaction.edit().encode(alloc)?.len() == 23);
    let edit = compaction.into_edit();
    assert!(rt; edit.compaction_ptrs[0].key == entry_key(alloc, "bba")?);
    Ok(())
}

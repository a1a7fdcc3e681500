//! The tables to which all pairs go.
use super::lists::{Merged, Row, merge_of, pair_of};
use bytes::Bytes;
use leveldb_base::cmp::DefaultCmp;
use leveldb_base::error::{Result, StatusCode};
use leveldb_base::names::table_file_name;
use leveldb_base::types::{FileMetaData, LdbIterator};
use leveldb_disks::mem_env::RecordEnv;
use leveldb_env::env::Env;
use leveldb_env::filter::BloomPolicy;
use leveldb_env::options::Options;
use leveldb_repair::write_found::{set_above, write_found};
use leveldb_table::cache::Cache;
use leveldb_table::table_reader::Table;
use leveldb_version_set::version_set::VersionSet;
use std::alloc::Global;
use support::failed_with;

type Set = VersionSet<RecordEnv, DefaultCmp>;

// Options under which a table ends after each block.
pub(super) fn small() -> Options<DefaultCmp, BloomPolicy> {
    let mut options = Options::default();
    options.block_size = 1;
    options.max_file_size = 1;
    options
}

fn set_of(alloc: Global, greatest: u64) -> Result<Set> {
    set_above(alloc, "db", &DefaultCmp, greatest)
}

// Writes all pairs of a merge to tables of the store `db`.
fn written(
    alloc: Global,
    env: &mut RecordEnv,
    merge: &mut Merged,
    set: &mut Set,
) -> Result<Vec<FileMetaData>> {
    write_found(alloc, env, &mut (), merge, set, "db", &small())
}

// Adds the pairs of a table to others.
pub(super) fn read_into(
    alloc: Global,
    env: &mut RecordEnv,
    file: &FileMetaData,
    pairs: &mut Vec<(Bytes, Bytes)>,
) -> Result<()> {
    let options = small();
    let open = env.open_random_access_file(&table_file_name(alloc, "db", file.num)?)?;
    let mut cache = Cache::new(alloc, 4)?;
    let table = Table::new(alloc, &options, env, &mut cache, open, file.size)?;
    let mut walk = table.iter(alloc, env, &mut cache, &options.compressor_list)?;
    while walk.advance()? {
        if let Some((key, value)) = walk.current() {
            pairs.push((
                Bytes::copy_from_slice(alloc, key)?,
                Bytes::copy_from_slice(alloc, value)?,
            ))?;
        }
    }
    Ok(())
}

/// Old entries and deletions stay, equal ones are there once, and tables are cut between user keys.
#[test]
fn all_pairs_are_in_tables(rt: HostRuntime) -> Result<()> {
    let alloc = rt.alloc();
    let one: [Row; 4] = [
        (b'a', 9, None),
        (b'a', 4, Some(b'v')),
        (b'b', 3, None),
        (b'd', 1, Some(b'w')),
    ];
    let other: [Row; 3] = [
        (b'a', 4, Some(b'v')),
        (b'a', 2, None),
        (b'c', 8, Some(b'x')),
    ];
    let all: [Row; 6] = [one[0], one[1], other[1], one[2], other[2], one[3]];
    let mut env = RecordEnv::new(alloc);
    let mut set = set_of(alloc, 40)?;
    let mut merge = merge_of(alloc, &[&one, &other])?;
    let files = written(alloc, &mut env, &mut merge, &mut set)?;
    assert!(rt; files.len() == 4 && set.next_file_num() == 46);
    let mut pairs = Vec::new(alloc);
    for (nth, file) in files.iter().enumerate() {
        assert!(rt; file.num == 42 + nth as u64);
        let begun = pairs.len();
        read_into(alloc, &mut env, file, &mut pairs)?;
        assert!(rt; file.smallest.as_slice() == pairs[begun].0.as_slice());
        assert!(rt; file.largest.as_slice() == pairs[pairs.len() - 1].0.as_slice());
    }
    assert!(rt; pairs.len() == all.len());
    for (found, row) in pairs.iter().zip(all.iter()) {
        let (key, value) = pair_of(alloc, row)?;
        assert!(rt; found.0.as_slice() == key.as_slice());
        assert!(rt; found.1.as_slice() == value.as_slice());
    }
    Ok(())
}

#[test]
fn no_pair_is_no_table(rt: HostRuntime) -> Result<()> {
    let alloc = rt.alloc();
    let mut env = RecordEnv::new(alloc);
    let mut set = set_of(alloc, 0)?;
    let mut merge = merge_of(alloc, &[&[]])?;
    let files = written(alloc, &mut env, &mut merge, &mut set)?;
    assert!(rt; files.is_empty() && env.moment() == 0 && set.next_file_num() == 2);
    Ok(())
}

/// Three numbers are a manifest's, the next log's and one after it. The last one no table may take.
#[test]
fn numbers_that_are_used_up_are_not_supported(rt: HostRuntime) -> Result<()> {
    let alloc = rt.alloc();
    for greatest in [u64::MAX, u64::MAX - 1, u64::MAX - 2] {
        assert!(rt; failed_with(set_of(alloc, greatest), StatusCode::NotSupported)?);
    }
    let mut env = RecordEnv::new(alloc);
    let mut set = set_of(alloc, u64::MAX - 3)?;
    let mut merge = merge_of(alloc, &[&[(b'a', 1, None)]])?;
    let files = written(alloc, &mut env, &mut merge, &mut set)?;
    assert!(rt; files.len() == 1 && set.next_file_num() == u64::MAX);
    let moment = env.moment();
    let mut merge = merge_of(alloc, &[&[(b'b', 2, None)]])?;
    let made = written(alloc, &mut env, &mut merge, &mut set);
    assert!(rt; failed_with(made, StatusCode::NotSupported)? && env.moment() == moment);
    Ok(())
}

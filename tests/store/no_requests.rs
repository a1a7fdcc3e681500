//! Calls that take no memory. `tools/refuse --same store made_calls left_out_calls` tells whether
//! the first test makes as many requests as the second, which prepares the same and makes none of
//! these calls.
use super::stores::{batch_of, buffered, opened};
use leveldb_base::blockhandle::BlockHandle;
use leveldb_base::cmp::{Cmp, DefaultCmp, InternalKeyCmp};
use leveldb_base::crc::{digest, mask_crc, unmask_crc};
use leveldb_base::error::Result;
use leveldb_base::key_types::{parse_internal_key, parse_tag, truncate_to_userkey};
use leveldb_base::types::LdbIterator;
use leveldb_env::env::Env;
use leveldb_env::filter::{BloomPolicy, FilterPolicy};
use leveldb_env::mem_env::MemEnv;
use leveldb_iter::snapshot::SnapshotList;
use leveldb_mem::memtable::MemTable;
use leveldb_mem::skipmap::SkipMap;
use leveldb_table::table_builder::Footer;
use std::alloc::Global;
use std::cmp::Ordering;
use std::process::Abort;

fn use_snapshots(rt: &impl Abort, alloc: Global, makes: bool) -> Result<()> {
    let mut list = SnapshotList::new(alloc);
    let first = list.new_snapshot(3)?;
    let second = list.new_snapshot(5)?;
    if makes {
        assert!(rt; !list.empty() && list.oldest() == 3 && list.newest() == 5);
        assert!(rt; list.release(first) && list.release(second) && list.empty());
    }
    Ok(())
}

/// A prepared memtable takes its entry, and an iterator over it looks and goes to no position.
fn use_memtable(rt: &impl Abort, alloc: Global, makes: bool) -> Result<()> {
    let mut table = MemTable::new(alloc, DefaultCmp);
    table.prepare(&batch_of(alloc, &[("a", Some("1"))])?)?;
    if makes {
        table.add_prepared(1, b"a", Some(b"1"));
        assert!(rt; table.len() == 1 && table.approx_mem_usage() > 0);
        let mut it = table.iter();
        assert!(rt; !it.valid() && it.current().is_none());
        it.reset();
        assert!(rt; !it.valid());
    }
    Ok(())
}

fn use_skipmap(rt: &impl Abort, alloc: Global, makes: bool) -> Result<()> {
    let mut map = SkipMap::new(alloc, DefaultCmp);
    map.insert(b"a", b"1")?;
    if makes {
        assert!(rt; map.contains(b"a") && map.len() == 1 && !map.is_empty());
        assert!(rt; map.approx_memory() == 194);
    }
    Ok(())
}

fn use_keys(rt: &impl Abort, alloc: Global, makes: bool) -> Result<()> {
    let mut key = Vec::from_slice(alloc, b"abc\x01\xe7\0\0\0\0\0\0")?;
    let policy = BloomPolicy::new(10);
    let filter = policy.create_filter(alloc, b"abc", &[0])?;
    if makes {
        let order = InternalKeyCmp(DefaultCmp);
        assert!(rt; order.accepts(&key) && order.cmp(&key, &key) == Ordering::Equal);
        assert!(rt; policy.key_may_match(b"abc", &filter));
        assert!(rt; parse_internal_key(&key).1 == 231 && parse_tag(231 << 8).1 == 231);
        truncate_to_userkey(&mut key);
        assert!(rt; key.as_slice() == b"abc".as_slice());
    }
    Ok(())
}

fn use_formats(rt: &impl Abort, makes: bool) {
    if makes {
        let mut digest = digest();
        digest.update(b"abc");
        let sum = digest.finalize();
        assert!(rt; unmask_crc(mask_crc(sum)) == sum);
        let mut bytes = [0; 48];
        assert!(rt; BlockHandle::new(300, 4).encode_to(&mut bytes) == 3);
        assert!(rt; BlockHandle::decode(&bytes).is_some());
        Footer::new(BlockHandle::new(44, 4), BlockHandle::new(55, 5)).encode(&mut bytes);
        assert!(rt; Footer::decode(&bytes).is_some());
    }
}

/// A snapshot that is held is released, and the store is abandoned, in place of its lock being
/// given back.
fn use_store(rt: &impl Abort, alloc: Global, makes: bool) -> Result<()> {
    let mut env = MemEnv::new(alloc);
    let mut engine = opened(alloc, &mut env, buffered(300))?;
    engine.put(&mut env, b"a", b"1")?;
    let snapshot = engine.get_snapshot()?;
    if makes {
        assert!(rt; engine.release_snapshot(snapshot).is_ok());
        assert!(rt; engine.abandon(&mut env).is_ok());
    } else {
        env.unlock("db/LOCK")?;
    }
    Ok(())
}

fn use_all(rt: &impl Abort, alloc: Global, makes: bool) -> Result<()> {
    use_snapshots(rt, alloc, makes)?;
    use_memtable(rt, alloc, makes)?;
    use_skipmap(rt, alloc, makes)?;
    use_keys(rt, alloc, makes)?;
    use_formats(rt, makes);
    use_store(rt, alloc, makes)
}

#[test]
fn made_calls(rt: HostRuntime) -> Result<()> {
    use_all(&rt, rt.alloc(), true)
}

#[test]
fn left_out_calls(rt: HostRuntime) -> Result<()> {
    use_all(&rt, rt.alloc(), false)
}

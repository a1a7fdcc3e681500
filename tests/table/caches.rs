//! Caches that are full, and what goes first.
use leveldb_base::error::Result;
use leveldb_table::cache::{Cache, CacheKey};

fn key(n: u8) -> CacheKey {
    let mut key = [0; 16];
    key[15] = n;
    key
}

// A copy of the value under a key, which counts as used.
fn got(cache: &mut Cache<u32>, n: u8) -> Option<u32> {
    cache.get(&key(n)).copied()
}

/// Five values in a cache of three: the first two go; a value is replaced in its place; what is
/// looked for stays longest.
#[test]
fn of_three(rt: HostRuntime) -> Result<()> {
    let mut cache = Cache::new(rt.alloc(), 3)?;
    for n in 1..=5 {
        cache.insert(&key(n), u32::from(n))?;
    }
    assert!(rt; (cache.count(), cache.cap()) == (3, 3));
    assert!(rt;
        [got(&mut cache, 1), got(&mut cache, 2), got(&mut cache, 3)] == [None, None, Some(3)]
    );
    cache.insert(&key(3), 33)?;
    assert!(rt; cache.count() == 3);
    cache.insert(&key(6), 6)?;
    assert!(rt; [got(&mut cache, 3), got(&mut cache, 4)] == [Some(33), None]);
    assert!(rt; [cache.remove(&key(5)), cache.remove(&key(5))] == [Some(5), None]);
    assert!(rt; cache.count() == 2);
    assert!(rt; [cache.new_cache_id()?, cache.new_cache_id()?] == [1, 2]);
    Ok(())
}

/// A cache with room for none keeps nothing.
#[test]
fn of_none(rt: HostRuntime) -> Result<()> {
    let mut cache = Cache::new(rt.alloc(), 0)?;
    cache.insert(&key(1), 1u32)?;
    assert!(rt; (cache.count(), cache.cap()) == (0, 0));
    assert!(rt; [got(&mut cache, 1), cache.remove(&key(1))] == [None, None]);
    assert!(rt; cache.new_cache_id()? == 1);
    Ok(())
}

//! Filters under any policy, and the policy that makes none.

use leveldb_base::error::Result;
use leveldb_env::filter::{FilterPolicy, NoFilterPolicy};
use std::alloc::Global;

/// A key of those that a filter is made for, looked for in it under any policy.
fn is_found<FP: FilterPolicy + Drop>(
    policy: FP,
    alloc: Global,
    keys: &[u8],
    key_offsets: &[usize],
    key: &[u8],
) -> Result<bool> {
    let filter = policy.create_filter(alloc, keys, key_offsets)?;
    Ok(policy.key_may_match(key, &filter))
}

#[test]
fn no_filter_matches_all(rt: HostRuntime) -> Result<()> {
    let policy = NoFilterPolicy::new();
    assert!(rt; policy.name() == "_");
    let filter = policy.create_filter(rt.alloc(), b"abcde", &[0, 3])?;
    assert!(rt; filter.is_empty());
    assert!(rt; policy.key_may_match(b"abc", &filter));
    assert!(rt; policy.key_may_match(b"x", b"any filter"));
    assert!(rt; is_found(&policy, rt.alloc(), b"abcde", &[0, 3], b"abc")?);
    Ok(())
}

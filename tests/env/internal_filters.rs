//! Filters of internal keys, looked up under other tags.
use leveldb_base::error::Result;
use leveldb_env::filter::{BloomPolicy, FilterPolicy, InternalFilterPolicy};

// The keys of the Bloom filter's vector, each with eight bytes after it.
const KEYS: &[u8] = b"abc123def456 8 bytesxxx111xxx222________ab00cd00ab00000000908070605040302010\
\0\0\0\0\0\0\0\x01";

const OFFSETS: &[usize] = &[0, 20, 40, 58];

// The Bloom filter of the users' keys.
const FILTER: [u8; 9] = [194, 148, 129, 140, 192, 196, 132, 164, 8];

#[test]
fn filter_of_users_keys(rt: HostRuntime) -> Result<()> {
    let policy = InternalFilterPolicy::new(BloomPolicy::new(12));
    assert!(rt; policy.name() == "leveldb.BuiltinBloomFilter2");
    let filter = policy.create_filter(rt.alloc(), KEYS, OFFSETS)?;
    assert!(rt; filter.as_slice() == FILTER.as_slice());
    Ok(())
}

#[test]
fn users_keys_alone_match(rt: HostRuntime) {
    let policy = InternalFilterPolicy::new(BloomPolicy::new(12));
    for key in [b"xxx111xxx222________", b"xxx111xxx222other wo"] {
        assert!(rt; policy.key_may_match(key, &FILTER));
    }
    assert!(rt; !policy.key_may_match(b"xxx111xxx222", &FILTER));
}

//! Bloom filters: the hash of a key, and the bits that keys set.
use leveldb_base::error::{Result, StatusCode};
use leveldb_env::filter::{BloomPolicy, FilterPolicy};
use std::process::Abort;
use support::failed_with;

const SEED: u32 = 0xbc9f_1d34;

const FACTOR: u32 = 0xc6a4_a793;

const KEYS: &[u8] = b"abc123def456xxx111xxx222ab00cd00ab908070605040302010";

const OFFSETS: &[usize] = &[0, 12, 24, 34];

// The key from each offset on.
const EACH_KEY: [&[u8]; 4] = [
    b"abc123def456",
    b"xxx111xxx222",
    b"ab00cd00ab",
    b"908070605040302010",
];

// The hash by the bytes of each word, from the last on.
fn slow_hash(key: &[u8]) -> u32 {
    let mut hash = SEED ^ FACTOR.wrapping_mul((key.len() % (1 << 32)) as u32);
    for word in key.chunks(4) {
        let mut number = 0u32;
        for byte in word.iter().rev() {
            number = number.wrapping_mul(256).wrapping_add(u32::from(*byte));
        }
        hash = hash.wrapping_add(number).wrapping_mul(FACTOR);
        hash ^= if word.len() == 4 {
            hash >> 16
        } else {
            hash >> 24
        };
    }
    hash
}

// How many bytes of bits filters have. No two of these numbers have a common factor, and their
// product is above 2^29: two hashes with the same bit in a filter of each length are the same.
const LENGTHS: [u8; 5] = [55, 59, 61, 63, 64];

// Whether this is the key's hash: filters of one probe, in which the bit of this hash alone is set,
// match the key.
fn has_hash(key: &[u8], hash: u32) -> bool {
    let policy = BloomPolicy::new(10);
    let mut found = true;
    for len in LENGTHS {
        let len = usize::from(len);
        let bit = hash as usize % (8 * len).max(1);
        let mut filter = [0; 256];
        filter[bit / 8] = 1 << (bit % 8);
        filter[len] = 1;
        let filter = filter.as_slice().get(..len + 1).unwrap_or_default();
        found &= policy.key_may_match(key, filter);
    }
    found
}

// Whether `count` bits of the key are set in these bytes, each found by its number.
fn slow_match(key: &[u8], bytes: &[u8], count: u8) -> bool {
    let hash = u64::from(slow_hash(key));
    let delta = hash * 0x8000 % 0x1_0000_0000 + hash / 0x2_0000;
    let bits = (bytes.len() as u64).wrapping_mul(8).max(1);
    let mut found = true;
    for turn in 0..u64::from(count) {
        let bit = hash.wrapping_add(turn.wrapping_mul(delta)) % 0x1_0000_0000 % bits;
        let byte = bytes.get((bit / 8) as usize).copied().unwrap_or(0);
        found &= byte >> (bit % 8) & 1 == 1;
    }
    found
}

// These hashes are LevelDB's.
#[test]
fn known_hashes(rt: HostRuntime) {
    assert!(rt; has_hash(b"", 0xbc9f_1d34));
    assert!(rt; !has_hash(b"", 0xbc9f_1d35));
    assert!(rt; has_hash(&[0x62], 0xef13_45c4));
    assert!(rt; has_hash(&[0xc3, 0x97], 0x5b66_3814));
    assert!(rt; has_hash(&[0xe2, 0x99, 0xa5], 0x323c_078f));
    assert!(rt; has_hash(&[0xe1, 0x80, 0xb9, 0x32], 0xed21_633a));
}

#[test]
fn every_length_is_hashed_by_words(rt: HostRuntime) {
    for len in 0..KEYS.len() + 1 {
        let key = &KEYS[..len];
        assert!(rt; has_hash(key, slow_hash(key)), "length {len}");
    }
}

// The filter of the four keys with 12 bits a key. The crate's tests have this filter and the next.
const FILTER: [u8; 9] = [194, 148, 129, 140, 192, 196, 132, 164, 8];

// The filter of the letters with 32 bits a key.
const FILTER_OF_LETTERS: [u8; 17] = [
    234, 195, 25, 155, 61, 141, 173, 140, 221, 28, 222, 92, 220, 112, 234, 227, 22,
];

#[test]
fn known_filters(rt: HostRuntime) -> Result<()> {
    let policy = BloomPolicy::new(12);
    assert!(rt; policy.name() == "leveldb.BuiltinBloomFilter2");
    let filter = policy.create_filter(rt.alloc(), KEYS, OFFSETS)?;
    assert!(rt; filter.as_slice() == FILTER.as_slice());
    let letters = b"abcdefghijklmnopqrstuvwxyz";
    let filter = BloomPolicy::new(32).create_filter(rt.alloc(), letters, &[0, 4, 8, 12])?;
    assert!(rt; filter.as_slice() == FILTER_OF_LETTERS.as_slice());
    Ok(())
}

#[test]
fn keys_match_a_known_filter(rt: HostRuntime) {
    let policy = BloomPolicy::new(12);
    for key in &EACH_KEY {
        assert!(rt; policy.key_may_match(key, &FILTER));
    }
    assert!(rt; !policy.key_may_match(b"ab00cd00ac", &FILTER));
}

// Whether a filter has the bits of the key.
fn has_bits(key: &[u8], filter: &[u8]) -> bool {
    let Some((count, bits)) = filter.split_last() else {
        return false;
    };
    slow_match(key, bits, *count)
}

// Asserts that a filter of the four keys has their bits, and of each prefix of the keys matches
// those with bits there.
fn assert_bits(rt: &impl Abort, policy: BloomPolicy, filter: &[u8]) {
    for key in &EACH_KEY {
        assert!(rt; has_bits(key, filter));
    }
    for len in 0..KEYS.len() + 1 {
        let key = &KEYS[..len];
        assert!(rt; policy.key_may_match(key, filter) == has_bits(key, filter));
    }
}

#[test]
fn bits_are_those_of_the_keys(rt: HostRuntime) -> Result<()> {
    for bits_per_key in [0, 1, 2, 10, 14, 15, 16, 32, 43, 44, 100] {
        let policy = BloomPolicy::new(bits_per_key);
        let filter = policy.create_filter(rt.alloc(), KEYS, OFFSETS)?;
        assert_bits(&rt, policy, &filter);
    }
    Ok(())
}

// Filters, and whether a key matches them that they weren't made of.
const OTHER_FILTERS: [(&[u8], bool); 7] = [
    (&[], true),
    (&[6], true),
    (&[0, 0, 31], true),
    (&[0, 0, 255], true),
    (&[0, 0, 0], true),
    (&[0, 0, 30], false),
    (&[0, 1], false),
];

#[test]
fn filters_that_match_all(rt: HostRuntime) {
    let policy = BloomPolicy::new(10);
    for (filter, matches) in &OTHER_FILTERS {
        assert!(rt;
            policy.key_may_match(b"abc", filter) == *matches,
            "{filter:?}"
        );
    }
}

#[test]
fn filter_of_no_keys(rt: HostRuntime) -> Result<()> {
    let filter = BloomPolicy::new(10).create_filter(rt.alloc(), b"", &[])?;
    assert!(rt; filter.as_slice() == [0, 0, 0, 0, 0, 0, 0, 0, 6].as_slice());
    Ok(())
}

// Offsets that are past the end, or that fall, cut what there is: here the keys `abc`, the empty
// key and `bc`.
#[test]
fn filter_by_offsets_that_fall(rt: HostRuntime) -> Result<()> {
    let policy = BloomPolicy::new(12);
    let filter = policy.create_filter(rt.alloc(), b"abc", &[0, 9, 1])?;
    let same = policy.create_filter(rt.alloc(), b"abcbc", &[0, 3, 3])?;
    assert!(rt; filter.as_slice() == same.as_slice());
    assert!(rt; policy.key_may_match(b"abc", &filter));
    assert!(rt; policy.key_may_match(b"bc", &filter));
    Ok(())
}

// Bits a key, and the offsets of keys that have 2^32 bits or more together.
const TOO_LARGE: [(u32, &[usize]); 2] = [(0xffff_ffff, &[0]), (0x5555_5555, &[0, 0, 0, 0])];

#[test]
fn filters_of_more_than_32_bits(rt: HostRuntime) -> Result<()> {
    for (bits_per_key, offsets) in &TOO_LARGE {
        let answer = BloomPolicy::new(*bits_per_key).create_filter(rt.alloc(), b"abc", offsets);
        assert!(rt; failed_with(answer, StatusCode::NotSupported)?);
    }
    Ok(())
}

//! Look-up keys, entries of a memtable, their parts and their orders.
use leveldb_base::cmp::DefaultCmp;
use leveldb_base::error::Result;
use leveldb_base::key_types::{
    LookupKey, ValueType, build_memtable_key, cmp_internal_key, cmp_memtable_key,
    parse_internal_key, parse_memtable_key, parse_tag, truncate_to_userkey,
};
use std::cmp::Ordering;

// The bytes are those of LevelDB's format, worked by hand.
#[test]
fn look_up_keys(rt: HostRuntime) -> Result<()> {
    let key = LookupKey::new(rt.alloc(), b"xyabxy", 97)?;
    assert!(rt; key.internal_key() == b"xyabxy\x01a\0\0\0\0\0\0".as_slice());
    assert!(rt; key.user_key() == b"xyabxy".as_slice());
    assert!(rt; key.memtable_key() == b"\x0exyabxy\x01a\0\0\0\0\0\0".as_slice());
    Ok(())
}

#[test]
fn look_up_keys_of_deletions(rt: HostRuntime) -> Result<()> {
    let key = LookupKey::new_full(rt.alloc(), b"", 1, ValueType::TypeDeletion)?;
    assert!(rt; key.clone()?.memtable_key() == [8, 0, 1, 0, 0, 0, 0, 0, 0].as_slice());
    Ok(())
}

const DELETED: [u8; 13] = [11, 97, 98, 99, 0, 231, 0, 0, 0, 0, 0, 0, 0];

const ENTRY: [u8; 16] = [11, 97, 98, 99, 1, 231, 0, 0, 0, 0, 0, 0, 3, 49, 50, 51];

#[test]
fn made_entries(rt: HostRuntime) -> Result<()> {
    let deleted = build_memtable_key(rt.alloc(), b"abc", b"", ValueType::TypeDeletion, 231)?;
    assert!(rt; deleted.as_slice() == DELETED.as_slice());
    let entry = build_memtable_key(rt.alloc(), b"abc", b"123", ValueType::TypeValue, 231)?;
    assert!(rt; entry.as_slice() == ENTRY.as_slice());
    Ok(())
}

#[test]
fn entries(rt: HostRuntime) -> Result<()> {
    let entry = build_memtable_key(rt.alloc(), b"abc", b"123", ValueType::TypeValue, 231)?;
    assert!(rt; parse_memtable_key(entry.as_slice()) == (3, 1, 231 << 8 | 1, 3, 13));
    assert!(rt; parse_memtable_key(b"\x0babc") == (3, 1, 0, 0, 0));
    Ok(())
}

#[test]
fn tags(rt: HostRuntime) {
    let found = [parse_tag(231 << 8 | 1), parse_tag(231 << 8), parse_tag(7)];
    let wanted = [
        (ValueType::TypeValue, 231),
        (ValueType::TypeDeletion, 231),
        (ValueType::TypeValue, 0),
    ];
    assert!(rt; found == wanted);
}

#[test]
fn parts_of_internal_keys(rt: HostRuntime) -> Result<()> {
    let found = parse_internal_key(b"abc\0\xe7\0\0\0\0\0\0");
    assert!(rt; found == (ValueType::TypeDeletion, 231, b"abc".as_slice()));
    let found = parse_internal_key(b"");
    assert!(rt; found == (ValueType::TypeDeletion, 0, b"".as_slice()));
    let mut key = Vec::from_slice(rt.alloc(), b"abc\x01\xe7\0\0\0\0\0\0")?;
    assert!(rt; key.len() == 11);
    truncate_to_userkey(&mut key);
    assert!(rt; key.as_slice() == b"abc".as_slice());
    Ok(())
}

// How two keys are ordered, as internal keys and as those of a memtable.
fn orders(a: &LookupKey, b: &LookupKey) -> [Ordering; 2] {
    [
        cmp_internal_key(&DefaultCmp, a.internal_key(), b.internal_key()),
        cmp_memtable_key(&DefaultCmp, a.memtable_key(), b.memtable_key()),
    ]
}

/// A newer version comes before an older one, and a longer key after both.
#[test]
fn order_of_versions(rt: HostRuntime) -> Result<()> {
    let newer = LookupKey::new(rt.alloc(), b"abc", 2)?;
    let older = LookupKey::new(rt.alloc(), b"abc", 1)?;
    let later = LookupKey::new(rt.alloc(), b"abc\0", 3)?;
    assert!(rt; orders(&newer, &older) == [Ordering::Less; 2]);
    assert!(rt; orders(&older, &newer) == [Ordering::Greater; 2]);
    assert!(rt; orders(&older, &later) == [Ordering::Less; 2]);
    Ok(())
}

/// A deletion at the same number is equal.
#[test]
fn order_of_kinds(rt: HostRuntime) -> Result<()> {
    let value = LookupKey::new(rt.alloc(), b"abc", 2)?;
    let deletion = LookupKey::new_full(rt.alloc(), b"abc", 2, ValueType::TypeDeletion)?;
    assert!(rt; orders(&value, &deletion) == [Ordering::Equal; 2]);
    Ok(())
}

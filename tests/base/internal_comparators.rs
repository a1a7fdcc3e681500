//! The orders of internal and of memtable keys, and what they make of two keys.
use leveldb_base::cmp::{Cmp, DefaultCmp, InternalKeyCmp, MemtableKeyCmp};
use leveldb_base::error::Result;
use leveldb_base::key_types::LookupKey;
use std::cmp::Ordering;

// What a comparator returns through its bound: the order, whether the first key is accepted, and
// the name.
fn order_and_name<C: Cmp + Copy>(cmp: C, a: &[u8], b: &[u8]) -> (Ordering, bool, &'static str) {
    (cmp.cmp(a, b), cmp.accepts(a), cmp.id())
}

// Two internal keys, and the separator between them: those of docs/FORMATS.md, worked by hand.
// After the user key come the type, 1, and seven bytes of the number, of which the largest is all
// ones.
const SEPARATORS: [(&[u8], &[u8], &[u8]); 7] = [
    (
        b"abc\x01\x01\0\0\0\0\0\0",
        b"zzz\x01\x02\0\0\0\0\0\0",
        b"b\x01\xff\xff\xff\xff\xff\xff\xff",
    ),
    (
        b"abcd\x01\x01\0\0\0\0\0\0",
        b"abce\x01\x02\0\0\0\0\0\0",
        b"abcd\0\x01\x01\0\0\0\0\0\0",
    ),
    (
        b"\x01\x02\0\0\0\0\0\0",
        b"\x01\x01\0\0\0\0\0\0",
        b"\x01\x02\0\0\0\0\0\0",
    ),
    (
        b"key\x01\x03\0\0\0\0\0\0",
        b"key\x01\x03\0\0\0\0\0\0",
        b"key\x01\x03\0\0\0\0\0\0",
    ),
    (
        b"abcd\x01\x01\0\0\0\0\0\0",
        b"abcf\x01\x02\0\0\0\0\0\0",
        b"abce\x01\x01\0\0\0\0\0\0",
    ),
    (
        b"abc\x01\x05\0\0\0\0\0\0",
        b"acd\x01\x04\0\0\0\0\0\0",
        b"abd\x01\x05\0\0\0\0\0\0",
    ),
    (
        b"abcdefghi\x01\x09\0\0\0\0\0\0",
        b"abcffghi\x01\x08\0\0\0\0\0\0",
        b"abce\x01\xff\xff\xff\xff\xff\xff\xff",
    ),
];

#[test]
fn separators(rt: HostRuntime) -> Result<()> {
    for (from, to, wanted) in &SEPARATORS {
        let found = InternalKeyCmp(DefaultCmp).find_shortest_sep(rt.alloc(), from, to)?;
        assert!(rt; found.as_slice() == *wanted, "{from:?} {to:?}: {found:?}");
    }
    Ok(())
}

#[test]
fn successors(rt: HostRuntime) -> Result<()> {
    let deletion = b"abcd\0\x07\0\0\0\0\0\0";
    let succ = InternalKeyCmp(DefaultCmp).find_short_succ(rt.alloc(), deletion)?;
    assert!(rt; succ.as_slice() == b"b\x01\x07\0\0\0\0\0\0".as_slice());
    Ok(())
}

#[test]
fn memtable_keys_are_not_shortened(rt: HostRuntime) -> Result<()> {
    let cmp = MemtableKeyCmp(DefaultCmp);
    let a = b"\x0babc\x01\x01\0\0\0\0\0\0";
    let b = b"\x0bzzz\x01\x02\0\0\0\0\0\0";
    assert!(rt; cmp.find_shortest_sep(rt.alloc(), a, b)?.as_slice() == a.as_slice());
    assert!(rt; cmp.find_short_succ(rt.alloc(), a)?.as_slice() == a.as_slice());
    Ok(())
}

/// A newer version comes before an older one.
#[test]
fn orders(rt: HostRuntime) -> Result<()> {
    let older = LookupKey::new(rt.alloc(), b"abc", 1)?;
    let newer = LookupKey::new(rt.alloc(), b"abc", 2)?;
    let found = [
        order_and_name(
            InternalKeyCmp(DefaultCmp),
            newer.internal_key(),
            older.internal_key(),
        ),
        order_and_name(
            MemtableKeyCmp(&DefaultCmp),
            newer.memtable_key(),
            older.memtable_key(),
        ),
    ];
    assert!(rt; found == [(Ordering::Less, true, "leveldb.BytewiseComparator"); 2]);
    Ok(())
}

#[test]
fn short_keys(rt: HostRuntime) {
    let internal = InternalKeyCmp(DefaultCmp);
    assert!(rt; !internal.accepts(b"1234567"));
    assert!(rt; !MemtableKeyCmp(&DefaultCmp).accepts(b"\x07seven b"));
    assert!(rt; internal.cmp_inner(b"b", b"a") == Ordering::Greater);
}

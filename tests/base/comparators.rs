//! The order of bytes, and its separators and successors.
use leveldb_base::cmp::{Cmp, DefaultCmp};
use std::cmp::Ordering;
use std::test::Fail;

// Two keys, and the separator between them: those of docs/FORMATS.md, worked by hand.
const SEPARATORS: [(&[u8], &[u8], &[u8]); 10] = [
    (b"abc", b"abc\0", b"abc"),
    (b"yyy", b"z", b"yyz"),
    (b"abcd", b"abcf", b"abce"),
    (b"abc", b"acd", b"abd"),
    (b"abcdefghi", b"abcffghi", b"abce"),
    (b"a", b"b", b"a\0"),
    (b"abc", b"zzz", b"b"),
    (b"", b"\0", b""),
    (b"\xff\xff", b"\xff\xff\x01", b"\xff\xff\0"),
    (b"abc", b"abc", b"abc"),
];

#[test]
fn separators(rt: HostRuntime) -> Result<(), Fail> {
    for (from, to, wanted) in &SEPARATORS {
        let found = DefaultCmp.find_shortest_sep(rt.alloc(), from, to)?;
        assert!(rt; found.as_slice() == *wanted, "{from:?} {to:?}: {found:?}");
    }
    Ok(())
}

const SUCCESSORS: [(&[u8], &[u8]); 5] = [
    (b"\xff\xff\xff", b"\xff\xff\xff\xff"),
    (b"abcd", b"b"),
    (b"zzzz", b"{"),
    (b"", b"\xff"),
    (b"\xff\x01\x02", b"\xff\x02"),
];

#[test]
fn successors(rt: HostRuntime) -> Result<(), Fail> {
    for (key, wanted) in &SUCCESSORS {
        let found = DefaultCmp.find_short_succ(rt.alloc(), key)?;
        assert!(rt; found.as_slice() == *wanted, "{key:?}: {found:?}");
    }
    Ok(())
}

// What a comparator returns through its bound.
fn order_and_name<C: Cmp + Copy>(cmp: C, a: &[u8], b: &[u8]) -> (Ordering, bool, &'static str) {
    (cmp.cmp(a, b), cmp.accepts(a), cmp.id())
}

#[test]
fn order(rt: HostRuntime) {
    let name = "leveldb.BytewiseComparator";
    let found = [
        order_and_name(&DefaultCmp, b"ab", b"ab\0"),
        order_and_name(DefaultCmp, b"a\xff", b"b"),
        order_and_name(&DefaultCmp, b"", b""),
    ];
    let less = (Ordering::Less, true, name);
    assert!(rt; found == [less, less, (Ordering::Equal, true, name)]);
    assert!(rt; DefaultCmp.cmp(b"b", b"a\xff") == Ordering::Greater);
}

//! Looks over merges.
use super::lists::{Row, list_of, merge_of, pair_of};
use bytes::Bytes;
use leveldb_base::error::{Result, StatusCode};
use leveldb_repair::look_over::{LookedOver, look_over};
use std::alloc::Global;
use support::failed_with;

// What a look over the merge of lists of these rows finds, the same by a second look.
fn looked(alloc: Global, lists: &[&[Row]]) -> Result<LookedOver> {
    let mut merge = merge_of(alloc, lists)?;
    look_over(alloc, &mut (), &mut (), &mut merge)?;
    look_over(alloc, &mut (), &mut (), &mut merge)
}

/// Pairs that two lists have are one, and the greatest number need not be the last.
#[test]
fn the_greatest_number_is_found(rt: HostRuntime) -> Result<()> {
    let alloc = rt.alloc();
    let one: [Row; 3] = [
        (b'a', 7, Some(b'x')),
        (b'a', 2, None),
        (b'c', 3, Some(b'z')),
    ];
    let other: [Row; 2] = [(b'a', 7, Some(b'x')), (b'b', 5, Some(b'y'))];
    let found = looked(alloc, &[&one, &other, &one])?;
    assert!(rt; found.any && found.last == 7);
    let found = looked(alloc, &[&other[1..]])?;
    assert!(rt; found.any && found.last == 5);
    Ok(())
}

#[test]
fn nothing_is_found_of_no_pair(rt: HostRuntime) -> Result<()> {
    let found = looked(rt.alloc(), &[&[], &[]])?;
    assert!(rt; !found.any && found.last == 0);
    let found = looked(rt.alloc(), &[])?;
    assert!(rt; !found.any && found.last == 0);
    Ok(())
}

/// Of one key and number there is another value, a deletion, or both of one list's.
#[test]
fn different_pairs_of_a_key_are_corruption(rt: HostRuntime) -> Result<()> {
    let alloc = rt.alloc();
    let one: [Row; 3] = [
        (b'a', 7, Some(b'x')),
        (b'b', 2, None),
        (b'c', 3, Some(b'z')),
    ];
    for other in [
        (b'a', 7, Some(b'y')),
        (b'b', 2, Some(b'x')),
        (b'c', 3, None),
    ] {
        let found = looked(alloc, &[&one, &[other]]);
        assert!(rt; failed_with(found, StatusCode::Corruption)?);
    }
    Ok(())
}

#[test]
fn a_key_without_a_tag_is_corruption(rt: HostRuntime) -> Result<()> {
    let alloc = rt.alloc();
    let mut pairs = Vec::new(alloc);
    pairs.push(pair_of(alloc, &(b'a', 7, None))?)?;
    pairs.push((Bytes::copy_from_slice(alloc, b"bad")?, Bytes::new()))?;
    let found = look_over(alloc, &mut (), &mut (), &mut list_of(pairs));
    assert!(rt; failed_with(found, StatusCode::Corruption)?);
    Ok(())
}

//! Held snapshots.
use leveldb_base::error::Result;
use leveldb_iter::snapshot::SnapshotList;

// Whether the oldest and the newest sequence number that are held are these.
fn holds(list: &SnapshotList, oldest: u64, newest: u64) -> bool {
    list.oldest() == oldest && list.newest() == newest
}

#[test]
fn oldest_and_newest(rt: HostRuntime) -> Result<()> {
    let mut list = SnapshotList::new(rt.alloc());
    assert!(rt; holds(&list, 0, 0) && list.empty());
    let first = list.new_snapshot(1)?;
    let second = list.new_snapshot(2)?;
    let third = list.new_snapshot(3)?;
    assert!(rt; holds(&list, 1, 3) && !list.empty());
    assert!(rt; list.release(third) && holds(&list, 1, 2));
    assert!(rt; !list.release(third));
    assert!(rt; list.release(first) && list.release(second));
    assert!(rt; holds(&list, 0, 0) && list.empty());
    Ok(())
}

/// A store of the last number 9 is read from there on, or from its oldest snapshot on; one that is
/// held of a store without entries has the number 0, which is as old as can be.
#[test]
fn smallest_number_that_is_read(rt: HostRuntime) -> Result<()> {
    let mut list = SnapshotList::new(rt.alloc());
    assert!(rt; list.smallest_held(9) == 9);
    let late = list.new_snapshot(7)?;
    let early = list.new_snapshot(4)?;
    assert!(rt; list.smallest_held(9) == 4);
    assert!(rt; list.release(early) && list.smallest_held(9) == 7);
    list.new_snapshot(0)?;
    assert!(rt; list.smallest_held(9) == 0 && list.release(late));
    Ok(())
}

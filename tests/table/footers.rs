//! Footers, byte by byte.
use super::checks::{footer_of, numbers};
use leveldb_base::blockhandle::BlockHandle;
use leveldb_table::table_builder::{FULL_FOOTER_LENGTH, Footer};

/// The footer of the handles (44, 4) and (55, 5), with zeros up to LevelDB's number of a table, by
/// its format; and two bytes after it.
const ENCODED: [u8; 50] = [
    44, 4, 55, 5, 0, 0, 0, 0, 0, 0, 0, 0, 0, 0, 0, 0, 0, 0, 0, 0, 0, 0, 0, 0, 0, 0, 0, 0, 0, 0, 0,
    0, 0, 0, 0, 0, 0, 0, 0, 0, 0x57, 0xfb, 0x80, 0x8b, 0x24, 0x75, 0x47, 0xdb, 7, 7,
];

/// Two handles, and their footer byte by byte; what is after it stays.
#[test]
fn encoded_and_decoded(rt: HostRuntime) {
    let footer = Footer::new(BlockHandle::new(44, 4), BlockHandle::new(55, 5));
    let mut target = [7; 50];
    footer.encode(&mut target);
    assert!(rt; target == ENCODED);
    let read = footer_of(&rt, &target[..FULL_FOOTER_LENGTH]);
    assert!(rt; [numbers(&read.meta_index), numbers(&read.index)] == [(44, 4), (55, 5)]);
}

// A footer that has handles of most bytes.
fn longest() -> Footer {
    Footer::new(
        BlockHandle::new(44, 4),
        BlockHandle::new(usize::MAX, usize::MAX),
    )
}

/// Bytes that are cut, longer or moved.
#[test]
fn other_lengths_are_not_decoded(rt: HostRuntime) {
    let mut longer = [0; 49];
    longest().encode(&mut longer);
    let (bytes, _) = longer.as_slice().split_at(FULL_FOOTER_LENGTH);
    assert!(rt; Footer::decode(bytes).is_some());
    assert!(rt; Footer::decode(&[]).is_none());
    assert!(rt; Footer::decode(bytes.split_at(47).0).is_none());
    assert!(rt; Footer::decode(&longer).is_none());
    assert!(rt; Footer::decode(longer.as_slice().split_at(1).1).is_none());
}

/// Filler that isn't zeros, another number, and a handle that is cut.
#[test]
fn changed_bytes_are_not_decoded(rt: HostRuntime) {
    let mut bytes = [0; FULL_FOOTER_LENGTH];
    longest().encode(&mut bytes);
    assert!(rt; Footer::decode(&bytes).is_some());
    for place in [21, 22, 39, 40, 47] {
        let mut changed = bytes;
        changed[place] ^= 0x81;
        assert!(rt; Footer::decode(&changed).is_none(), "at {place}");
    }
}

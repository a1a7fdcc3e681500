//! Block handles of LevelDB's format, and bytes that are none.
use leveldb_base::blockhandle::BlockHandle;

const LARGEST: [u8; 20] = [
    0xff, 0xff, 0xff, 0xff, 0xff, 0xff, 0xff, 0xff, 0xff, 1, 0xff, 0xff, 0xff, 0xff, 0xff, 0xff,
    0xff, 0xff, 0xff, 1,
];

/// Offsets and sizes, and the bytes of their handles: LevelDB's varints, two by two, and the handle
/// of the crate's own test.
const HANDLES: [(usize, usize, &[u8]); 5] = [
    (0, 0, &[0, 0]),
    (300, 127, &[0xac, 2, 0x7f]),
    (128, 0xffff_ffff, &[0x80, 1, 0xff, 0xff, 0xff, 0xff, 0x0f]),
    (890, 777, &[0xfa, 6, 0x89, 6]),
    (usize::MAX, usize::MAX, &LARGEST),
];

// How many bytes are written, and a byte of 7 at least after them.
fn encoded(offset: usize, size: usize) -> (usize, [u8; 21]) {
    let mut bytes = [7; 21];
    let count = BlockHandle::new(offset, size).encode_to(&mut bytes);
    (count, bytes)
}

fn decoded(bytes: &[u8]) -> Option<(usize, usize, usize)> {
    let (handle, used) = BlockHandle::decode(bytes)?;
    Some((handle.offset(), handle.size(), used))
}

#[test]
fn encoded_both_ways(rt: HostRuntime) {
    for (offset, size, bytes) in &HANDLES {
        let (count, written) = encoded(*offset, *size);
        assert!(rt;
            count == bytes.len() && written.starts_with(bytes),
            "at {offset}"
        );
        assert!(rt;
            decoded(&written) == Some((*offset, *size, count)),
            "at {offset}"
        );
    }
}

/// No byte, one number alone, a cut number, and second encodings of 1.
const MALFORMED: [&[u8]; 6] = [&[], &[0], &[0x80], &[0, 0x80], &[0x81, 0, 0], &[0, 0x81, 0]];

#[test]
fn malformed(rt: HostRuntime) {
    for bytes in &MALFORMED {
        assert!(rt; BlockHandle::decode(bytes).is_none(), "{bytes:?}");
    }
    assert!(rt; BlockHandle::decode(&LARGEST[..19]).is_none());
}

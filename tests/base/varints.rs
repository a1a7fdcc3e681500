//! Varints of LevelDB's documents, both ways, and bytes that are no number.
use leveldb_base::error::Result;
use leveldb_base::varint::{
    encode_varint32, encode_varint64, get_length_prefixed_slice, get_varint32, get_varint64,
    put_length_prefixed_slice, put_varint32, put_varint64, varint_length,
};

/// Rows of LevelDB's documents.
const NUMBERS: [(u32, &[u8]); 4] = [
    (127, &[0x7f]),
    (128, &[0x80, 1]),
    (300, &[0xac, 2]),
    (u32::MAX, &[0xff, 0xff, 0xff, 0xff, 0x0f]),
];

#[test]
fn written_numbers_of_32_bits(rt: HostRuntime) -> Result<()> {
    for (n, bytes) in &NUMBERS {
        let mut put = Vec::new(rt.alloc());
        put_varint32(&mut put, *n)?;
        assert!(rt; put.as_slice() == *bytes, "put {n}");
        let mut encoded = [7; 5];
        let length = encode_varint32(&mut encoded, *n);
        assert!(rt;
            length == bytes.len() && encoded.starts_with(bytes),
            "encode {n}"
        );
        assert!(rt; varint_length(u64::from(*n)) == length, "length of {n}");
    }
    Ok(())
}

#[test]
fn read_numbers_of_32_bits(rt: HostRuntime) {
    for (n, bytes) in &NUMBERS {
        assert!(rt; get_varint32(bytes) == Some((*n, bytes.len())), "get {n}");
        assert!(rt;
            get_varint64(bytes) == Some((u64::from(*n), bytes.len())),
            "get {n}"
        );
    }
}

/// The largest number: nine groups of ones, and the one bit that is left.
const LARGEST: [u8; 10] = [0xff, 0xff, 0xff, 0xff, 0xff, 0xff, 0xff, 0xff, 0xff, 1];

#[test]
fn largest_number(rt: HostRuntime) -> Result<()> {
    let mut put = Vec::new(rt.alloc());
    put_varint64(&mut put, u64::MAX)?;
    assert!(rt; put.as_slice() == LARGEST.as_slice());
    let mut encoded = [0; 10];
    let length = encode_varint64(&mut encoded, u64::MAX);
    assert!(rt; encoded == LARGEST);
    assert!(rt; [length, varint_length(u64::MAX)] == [10, 10]);
    assert!(rt; get_varint64(&LARGEST) == Some((u64::MAX, 10)));
    Ok(())
}

/// A second encoding of 1, cut ones, and numbers of too many bits.
const MALFORMED: [&[u8]; 6] = [
    &[],
    &[0x81, 0],
    &[0x80],
    &[0xff, 0xff, 0xff],
    &[0xff, 0xff, 0xff, 0xff, 0xff, 0xff, 0xff, 0xff, 0xff, 2],
    &[
        0x80, 0x80, 0x80, 0x80, 0x80, 0x80, 0x80, 0x80, 0x80, 0x80, 1,
    ],
];

#[test]
fn malformed(rt: HostRuntime) {
    for bytes in &MALFORMED {
        assert!(rt; get_varint32(bytes).is_none(), "{bytes:?}");
        assert!(rt; get_varint64(bytes).is_none(), "{bytes:?}");
    }
}

#[test]
fn number_of_33_bits(rt: HostRuntime) {
    let bytes = [0x80, 0x80, 0x80, 0x80, 0x10];
    assert!(rt; get_varint32(&bytes).is_none());
    assert!(rt; get_varint64(&bytes) == Some((1 << 32, 5)));
}

#[test]
fn texts_after_their_lengths(rt: HostRuntime) -> Result<()> {
    let mut put = Vec::new(rt.alloc());
    put_length_prefixed_slice(&mut put, b"key")?;
    put_length_prefixed_slice(&mut put, b"")?;
    assert!(rt; put.as_slice() == b"\x03key\0".as_slice());
    Ok(())
}

#[test]
fn read_texts(rt: HostRuntime) {
    let after_key = b"\0".as_slice();
    let nothing = b"".as_slice();
    assert!(rt; get_length_prefixed_slice(b"\x03key\0") == Some((b"key".as_slice(), after_key)));
    assert!(rt; get_length_prefixed_slice(after_key) == Some((nothing, nothing)));
    assert!(rt; get_length_prefixed_slice(b"\x03ke").is_none());
}

//! Bytes in Snappy's format, and the texts that they make.
use super::slow::slow_decoded;
use super::texts::{encoded, repeating_text};
use leveldb_base::error::{Result, StatusCode};
use leveldb_env::compressor::{Compressor, CompressorList};
use leveldb_snappy::Snappy;
use std::alloc::Global;
use support::failed_with;

fn is_read_as(alloc: Global, stored: &[u8], text: &[u8]) -> Result<bool> {
    let slow = slow_decoded(alloc, stored)?;
    let read = Snappy.decode(alloc, stored.to_vec(alloc)?)?;
    Ok(read.as_slice() == text && slow.is_some_and(|slow| slow.as_slice() == text))
}

fn is_refused(alloc: Global, stored: &[u8], code: StatusCode) -> Result<bool> {
    let slow = slow_decoded(alloc, stored)?;
    let read = Snappy.decode(alloc, stored.to_vec(alloc)?);
    Ok(slow.is_none() && failed_with(read, code)?)
}

// What C++ Snappy 1.1.9 makes of these texts, and some that it reads but doesn't make.
const VECTORS: &[(&[u8], &[u8])] = &[
    (b"\x00", b""),
    (b"\x01\x00\x61", b"a"),
    (b"\x0a\x24aaaaaaaaaa", b"aaaaaaaaaa"),
    // a copy of each kind, after a literal of four bytes
    (b"\x08\x0cabcd\x01\x04", b"abcdabcd"),
    (b"\x08\x0cabcd\x0e\x04\x00", b"abcdabcd"),
    (b"\x08\x0cabcd\x0f\x04\x00\x00\x00", b"abcdabcd"),
    // copies that overlap what they add
    (b"\x0a\x00a\x15\x01", b"aaaaaaaaaa"),
    (b"\x0b\x04ab\x22\x02\x00", b"abababababa"),
    // a copy of one byte
    (b"\x02\x00a\x02\x01\x00", b"aa"),
    // literals whose length is in one to four bytes after the tag
    (b"\x03\xf0\x02abc", b"abc"),
    (b"\x03\xf4\x02\x00abc", b"abc"),
    (b"\x03\xf8\x02\x00\x00abc", b"abc"),
    (b"\x03\xfc\x02\x00\x00\x00abc", b"abc"),
    // a length in more bytes than it needs
    (b"\x83\x80\x80\x80\x00\x08abc", b"abc"),
];

#[test]
fn vectors(rt: HostRuntime) -> Result<()> {
    for (stored, text) in VECTORS {
        assert!(rt; is_read_as(rt.alloc(), stored, text)?, "{text:?}");
    }
    Ok(())
}

#[test]
fn long_vectors(rt: HostRuntime) -> Result<()> {
    let same = repeating_text(rt.alloc(), b"a", 100)?;
    let stored = b"\x64\x00\x61\xfe\x01\x00\x8a\x01\x00";
    assert!(rt; is_read_as(rt.alloc(), stored, &same)?);
    let three = repeating_text(rt.alloc(), b"abc", 90)?;
    let stored = b"\x5a\x08\x61\x62\x63\xfe\x03\x00\x5a\x03\x00";
    assert!(rt; is_read_as(rt.alloc(), stored, &three)?);
    Ok(())
}

// A text in which no four bytes stand twice is one literal.
#[test]
fn texts_without_a_match(rt: HostRuntime) -> Result<()> {
    let mut text = Vec::new(rt.alloc());
    for byte in 0..70u8 {
        text.push(byte)?;
    }
    let stored = encoded(rt.alloc(), &text)?;
    assert!(rt; stored.as_slice().get(..3) == Some(b"\x46\xf0\x45".as_slice()));
    assert!(rt; stored.as_slice().get(3..) == Some(text.as_slice()));
    assert!(rt; encoded(rt.alloc(), b"")?.as_slice() == b"\x00".as_slice());
    assert!(rt; encoded(rt.alloc(), b"abc")?.as_slice() == b"\x03\x08abc".as_slice());
    Ok(())
}

const DAMAGED: &[&[u8]] = &[
    // no length, one that is cut, one of six bytes, and some of 33 bits and more
    b"",
    b"\x80",
    b"\x80\x80\x80\x80\x80\x00",
    b"\x80\x80\x80\x80\x10",
    b"\x80\x80\x80\x80\x70\x00a",
    b"\xff\xff\xff\xff\x7f\x00a",
    // a text of another length than is stated
    b"\x01",
    b"\x00\x00a",
    b"\x02\x00a",
    b"\x03\x0cabcd",
    b"\x07\x0cabcd\x01\x04",
    b"\x09\x0cabcd\x01\x04",
    // lengths that so few elements can't make
    b"\x80\x80\x80\x80\x04",
    b"\x80\x80\x80\x80\x04\x00a\xfe\x01\x00",
    // an end within an element
    b"\x04\x0cabc",
    b"\x04\x0c",
    b"\x03\xf0",
    b"\x03\xf4\x02",
    b"\x03\xfc\x02\x00\x00",
    b"\x08\x0cabcd\x01",
    b"\x08\x0cabcd\x0e\x04",
    b"\x08\x0cabcd\x0f\x04\x00\x00",
    // an offset of 0, and offsets past the front
    b"\x08\x0cabcd\x01\x00",
    b"\x08\x0cabcd\x0e\x00\x00",
    b"\x08\x0cabcd\x01\x05",
    b"\x08\x0cabcd\x21\x04",
    b"\x08\x0cabcd\x0e\x04\x01",
    b"\x08\x0cabcd\x0f\x04\x00\x00\x80",
    b"\x04\x01\x01",
    // literals of 2^32 bytes, which C++ Snappy 1.1.9 takes for none
    b"\x00\xfc\xff\xff\xff\xff",
    b"\x01\xfc\xff\xff\xff\xffa",
    b"\x01\x00a\xfc\xff\xff\xff\xff",
];

// Lengths of at most 32 bits that are above 2^30.
const TOO_LONG: &[&[u8]] = &[
    b"\x81\x80\x80\x80\x04",
    b"\x81\x80\x80\x80\x04\x00a",
    b"\xff\xff\xff\xff\x0f\x00a",
];

#[test]
fn damaged_vectors(rt: HostRuntime) -> Result<()> {
    for (i, stored) in DAMAGED.iter().enumerate() {
        assert!(rt;
            is_refused(rt.alloc(), stored, StatusCode::Corruption)?,
            "{i}"
        );
    }
    Ok(())
}

#[test]
fn vectors_of_long_texts(rt: HostRuntime) -> Result<()> {
    for (i, stored) in TOO_LONG.iter().enumerate() {
        assert!(rt;
            is_refused(rt.alloc(), stored, StatusCode::NotSupported)?,
            "{i}"
        );
    }
    Ok(())
}

// The id under which LevelDB's tables name Snappy.
#[test]
fn listed(rt: HostRuntime) -> Result<()> {
    let alloc = rt.alloc();
    let mut list = CompressorList::default();
    list.set::<Snappy>(alloc, Box::new(alloc, Snappy)?)?;
    assert!(rt; list.is_set(0) && list.is_set(1));
    let stored = list
        .get(alloc, 1)?
        .encode(alloc, b"abcdabcdabcd".to_vec(alloc)?)?;
    assert!(rt; stored.len() < 12);
    let read = list.get(alloc, 1)?.decode(alloc, stored)?;
    assert!(rt; read.as_slice() == b"abcdabcdabcd".as_slice());
    Ok(())
}

//! Batches and their bytes: changes read back, and bytes that are cut, raised or malformed.
use super::checks::{CHANGES, five_changes};
use leveldb_base::error::{Result, StatusCode};
use leveldb_mem::write_batch::WriteBatch;
use std::process::Abort;
use support::{change_byte, failed_with};

#[test]
fn one_put(rt: HostRuntime) -> Result<()> {
    let mut batch = WriteBatch::new(rt.alloc())?;
    assert!(rt; batch.contents() == [0; 12].as_slice());
    batch.put(b"a", b"1")?;
    let encoded = batch.encode(1);
    assert!(rt; encoded.as_slice() == b"\x01\0\0\0\0\0\0\0\x01\0\0\0\x01\x01a\x011".as_slice());
    Ok(())
}

/// Asserts that a batch has the five changes, in their order.
fn assert_changes(rt: &impl Abort, batch: &WriteBatch) {
    let mut left = CHANGES.iter();
    for change in batch.iter() {
        assert!(rt; left.next() == Some(&change));
    }
    assert!(rt; left.next().is_none());
}

/// Asserts how many bytes and changes a batch has, and at which number it is.
fn assert_sizes(rt: &impl Abort, batch: &WriteBatch, wanted: (usize, u32, u64)) {
    let found = (batch.contents().len(), batch.count(), batch.sequence());
    assert!(rt; found == wanted);
}

#[test]
fn five_changes_are_read(rt: HostRuntime) -> Result<()> {
    let mut batch = five_changes(rt.alloc())?;
    assert_sizes(&rt, &batch, (49, 5, 0));
    assert_changes(&rt, &batch);
    batch.set_sequence(7);
    assert_sizes(&rt, &batch, (49, 5, 7));
    batch.clear();
    assert_sizes(&rt, &batch, (12, 0, 0));
    assert!(rt; batch.iter().next().is_none());
    Ok(())
}

/// A put that finds no memory leaves the batch's bytes as they were.
#[test]
fn refused_put(rt: HostRuntime) -> Result<()> {
    let mut batch = five_changes(rt.alloc())?;
    let before = Vec::from_slice(rt.alloc(), batch.contents())?;
    let put = batch.put(b"key", &[7; 200]);
    if put.is_err() {
        assert!(rt; batch.encode(0) == before);
        return put;
    }
    assert!(rt; batch.contents().len() == 256);
    Ok(())
}

/// A cut text, a length with a second encoding, a count that isn't that of the entries, a kind that
/// isn't there, a byte after the entries, and a cut header.
const MALFORMED: [&[u8]; 6] = [
    b"\x01\0\0\0\0\0\0\0\x01\0\0\0\x01\x01a",
    b"\x01\0\0\0\0\0\0\0\x01\0\0\0\x01\x81\0a\x011",
    b"\x01\0\0\0\0\0\0\0\x02\0\0\0\x01\x01a\x011",
    b"\x01\0\0\0\0\0\0\0\x01\0\0\0\x02\x01a",
    b"\x01\0\0\0\0\0\0\0\x01\0\0\0\0\x01a\0",
    b"\x01\0\0\0\0\0\0\0\0\0\0",
];

/// Bytes that are no batch leave the one that was there.
#[test]
fn malformed(rt: HostRuntime) -> Result<()> {
    let mut batch = five_changes(rt.alloc())?;
    let before = Vec::from_slice(rt.alloc(), batch.contents())?;
    for bytes in &MALFORMED {
        let answer = batch.set_contents(bytes);
        assert!(rt;
            failed_with(answer, StatusCode::InvalidArgument)?,
            "{bytes:?}"
        );
        assert!(rt; batch.contents() == before.as_slice(), "{bytes:?}");
    }
    Ok(())
}

/// No cut of a batch is one.
#[test]
fn cut_anywhere(rt: HostRuntime) -> Result<()> {
    let whole = five_changes(rt.alloc())?.encode(1);
    let mut batch = WriteBatch::new(rt.alloc())?;
    for end in 0..whole.len() {
        assert!(rt; batch.set_contents(&whole[..end]).is_err(), "{end} bytes");
    }
    Ok(())
}

/// Whether bytes are a batch. It then has these contents.
fn is_batch(rt: &impl Abort, batch: &mut WriteBatch, bytes: &[u8]) -> bool {
    let is_batch = batch.set_contents(bytes).is_ok();
    assert!(rt; !is_batch || batch.contents() == bytes, "{bytes:?}");
    is_batch
}

/// With a byte raised by one a batch is another where that byte is of the number, a key or a value.
#[test]
fn each_byte_raised(rt: HostRuntime) -> Result<()> {
    let mut bytes = five_changes(rt.alloc())?.encode(1);
    let mut batch = WriteBatch::new(rt.alloc())?;
    let mut others = Vec::new(rt.alloc());
    for offset in 0..bytes.len() {
        change_byte(&mut bytes, offset, 1);
        if is_batch(&rt, &mut batch, &bytes) {
            others.push(offset)?;
        }
        change_byte(&mut bytes, offset, 255);
    }
    assert!(rt; others.len() == 8 + 3 * 6 + 2 * 3);
    Ok(())
}

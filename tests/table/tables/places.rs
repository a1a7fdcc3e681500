//! The offsets of a table's blocks, and keys between two of them.
use super::*;

/// Keys, and the offset of the block of each, which is after those before it: of 3 bytes, the
/// pair's, 8 and 5. After the last are filters of 9 and 5.
const OFFSETS: [(&[u8], usize); 14] = [
    (b"", 0),
    (b"a", 20),
    (b"aa", 37),
    (b"ab", 56),
    (b"abc", 76),
    (b"b\0", 98),
    (b"bb", 116),
    (b"bbb", 135),
    (b"c", 159),
    (b"ca", 177),
    (b"ca\0", 177),
    (b"\xff", 195),
    (b"\xff\xff", 213),
    (b"\xff\xff\xff\xff", 247),
];

/// Asserts the offsets of these keys.
fn assert_offsets<E: Env, FP: FilterPolicy>(
    rt: &(impl Abort + AllocGlobal),
    table: &Table<E, DefaultCmp, FP>,
) -> Result<()> {
    for (key, offset) in &OFFSETS {
        let found = table.approx_offset_of(rt.alloc(), key)?;
        assert!(rt; found == *offset, "at {key:?}");
    }
    Ok(())
}

#[test]
fn offsets(rt: HostRuntime) -> Result<()> {
    let mut cache = Cache::new(rt.alloc(), 1)?;
    let opened = Opened::new(&rt, &mut cache, &PAIRS)?;
    assert_offsets(&rt, &opened.table)
}

/// The first pair of the next block is found for a key between two blocks.
#[test]
fn between_blocks(rt: HostRuntime) -> Result<()> {
    let mut cache = Cache::new(rt.alloc(), 1)?;
    let mut opened = Opened::new(&rt, &mut cache, &PAIRS)?;
    let compressors = CompressorList::default();
    let mut reader = opened.reader(&mut cache, &compressors);
    let found = reader.get(rt.alloc(), b"ca\0")?;
    assert!(rt; is_found(&found, PAIRS.as_slice().get(10).copied(), b"ca\0", false));
    Ok(())
}

//! Edits of known bytes, in other orders of fields, cut and changed.
use bytes::Bytes;
use leveldb_base::error::{Result, Status, StatusCode};
use leveldb_base::types::{FileMetaData, FileNum};
use leveldb_mem::log::LogWriter;
use leveldb_version::version_edit::{CompactionPointer, VersionEdit};
use std::alloc::Global;
use std::process::Abort;
use support::{change_byte, failed_with};

const NAME: &str = "leveldb.BytewiseComparator";

// A file of the keys abc to def.
fn file(allowed_seeks: usize) -> FileMetaData {
    FileMetaData {
        allowed_seeks,
        num: 901,
        size: 234,
        smallest: Bytes::from_static(b"abc"),
        largest: Bytes::from_static(b"def"),
    }
}

const POINTERS: [(usize, &[u8]); 3] = [(0, b"abc"), (1, b"def"), (2, b"xyz")];

fn set_pointers(edit: &mut VersionEdit) -> Result<()> {
    for (level, key) in &POINTERS {
        edit.set_compact_pointer(*level, key)?;
    }
    Ok(())
}

// Files in no order, and one of them twice.
const DELETED: [(usize, FileNum); 4] = [(1, 132), (1, 131), (0, 200), (1, 132)];

fn delete_files(edit: &mut VersionEdit) -> Result<()> {
    for (level, number) in &DELETED {
        edit.delete_file(*level, *number)?;
    }
    Ok(())
}

// An edit with each kind of field.
fn full(alloc: Global) -> Result<VersionEdit> {
    let mut edit = VersionEdit::new(alloc);
    edit.set_log_num(123);
    edit.set_next_file(456);
    edit.set_prev_log_num(9);
    edit.set_last_seq(1 << 56);
    edit.set_comparator_name(NAME)?;
    edit.add_file(0, file(12345))?;
    set_pointers(&mut edit)?;
    delete_files(&mut edit)?;
    Ok(edit)
}

/// The bytes that are written for the edit that is read of `bytes`.
fn written_again(alloc: Global, bytes: &[u8]) -> Result<Vec<u8>> {
    VersionEdit::decode_from(alloc, bytes)?.encode(alloc)
}

/// Whether the edit that is read of `bytes` is written as `wanted`.
fn is_written_as(alloc: Global, bytes: &[u8], wanted: &[u8]) -> Result<bool> {
    Ok(written_again(alloc, bytes)?.as_slice() == wanted)
}

/// The bytes of a store's first edit.
const FIRST: &[u8; 34] = b"\x01\x1aleveldb.BytewiseComparator\x02\0\x03\x02\x04\0";

/// The first edit of a store.
#[test]
fn first_edit(rt: HostRuntime) -> Result<()> {
    let mut edit = VersionEdit::new(rt.alloc());
    edit.set_comparator_name(NAME)?;
    edit.set_log_num(0);
    edit.set_next_file(2);
    edit.set_last_seq(0);
    let bytes = edit.encode(rt.alloc())?;
    assert!(rt; bytes.as_slice() == FIRST.as_slice());
    assert!(rt; is_written_as(rt.alloc(), FIRST, FIRST)?);
    Ok(())
}

/// An internal key: the user key `a` at 1, a value.
const KEY: &[u8; 9] = b"a\x01\x01\0\0\0\0\0\0";

/// The edit that writes a memtable out: the log is 4, the previous one 0, the next file 6, the last
/// sequence 1, and level 2 gains the table 5 of 177 bytes, which has `KEY` alone.
const ONE_TABLE: &[u8; 33] =
    b"\x02\x04\x09\0\x03\x06\x04\x01\x07\x02\x05\xb1\x01\x09a\x01\x01\0\0\0\0\0\0\
    \x09a\x01\x01\0\0\0\0\0\0";

fn table() -> FileMetaData {
    FileMetaData {
        allowed_seeks: 0,
        num: 5,
        size: 177,
        smallest: Bytes::from_static(KEY),
        largest: Bytes::from_static(KEY),
    }
}

#[test]
fn edit_of_one_table(rt: HostRuntime) -> Result<()> {
    let mut edit = VersionEdit::new(rt.alloc());
    edit.set_log_num(4);
    edit.set_prev_log_num(0);
    edit.set_next_file(6);
    edit.set_last_seq(1);
    edit.add_file(2, table())?;
    assert!(rt; edit.encode(rt.alloc())?.as_slice() == ONE_TABLE.as_slice());
    let read = VersionEdit::decode_from(rt.alloc(), ONE_TABLE)?;
    assert!(rt; adds(&read, 2, table()));
    Ok(())
}

/// A manifest is a log: each edit is a record after a header of seven bytes.
#[test]
fn manifest_of_two_edits(rt: HostRuntime) -> Result<()> {
    let mut manifest = LogWriter::new(rt.alloc(), Vec::new(rt.alloc()));
    assert!(rt; manifest.add_record(FIRST)? == 41);
    assert!(rt; manifest.add_record(ONE_TABLE)? == 7 + 33);
    assert!(rt; manifest.sink.len() == 81);
    Ok(())
}

/// Asserts that the single values are those of the full edit.
fn assert_values(rt: &impl Abort, edit: &VersionEdit) {
    assert!(rt; edit.comparator.as_ref().map(|name| name.as_str()) == Some(NAME));
    let files = [edit.log_number, edit.prev_log_number, edit.next_file_number];
    assert!(rt; files == [Some(123), Some(9), Some(456)]);
    assert!(rt; edit.last_seq == Some(1 << 56));
}

fn pointer(level: usize, key: &'static [u8]) -> CompactionPointer {
    CompactionPointer {
        level,
        key: Bytes::from_static(key),
    }
}

fn assert_pointers(rt: &impl Abort, edit: &VersionEdit) {
    assert!(rt; edit.compaction_ptrs.len() == 3);
    for (found, (level, key)) in edit.compaction_ptrs.iter().zip(&POINTERS) {
        assert!(rt; *found == pointer(*level, key));
    }
}

/// Whether the edit deletes these files, in this order.
fn deletes(edit: &VersionEdit, wanted: &[(usize, FileNum)]) -> bool {
    edit.deleted.iter().eq(wanted)
}

/// Whether the edit adds this file alone.
fn adds(edit: &VersionEdit, level: usize, file: FileMetaData) -> bool {
    edit.new_files.as_slice() == [(level, file)].as_slice()
}

/// The full edit, written and read.
fn read_again(alloc: Global) -> Result<VersionEdit> {
    let encoded = full(alloc)?.encode(alloc)?;
    VersionEdit::decode_from(alloc, &encoded)
}

/// What an edit with each kind of field keeps. Allowed seeks aren't written.
#[test]
fn full_edit(rt: HostRuntime) -> Result<()> {
    let edit = read_again(rt.alloc())?;
    assert_values(&rt, &edit);
    assert_pointers(&rt, &edit);
    assert!(rt; deletes(&edit, &[(0, 200), (1, 131), (1, 132)]));
    assert!(rt; adds(&edit, 0, file(0)));
    Ok(())
}

/// Fields in another order and a single value given twice, of which the last counts, and how each
/// edit is written.
const ORDERS: [(&[u8], &[u8]); 4] = [
    (b"\x04\x07\x02\x05\x03\x01", b"\x02\x05\x03\x01\x04\x07"),
    (b"\x02\x05\x02\x06\x01\x01a\x01\x01b", b"\x01\x01b\x02\x06"),
    (
        b"\x06\x01\x09\x09\x03\x06\x01\x08\x06\0\x0a\x06\x01\x08",
        b"\x09\x03\x06\0\x0a\x06\x01\x08\x06\x01\x09",
    ),
    (b"", b""),
];

#[test]
fn other_orders(rt: HostRuntime) -> Result<()> {
    for (bytes, wanted) in &ORDERS {
        assert!(rt; is_written_as(rt.alloc(), bytes, wanted)?, "{bytes:?}");
    }
    Ok(())
}

/// A level past the last, tags that aren't there, a name that is no text, a second encoding of a
/// number, a cut text, a cut number; and the field that the error names.
const MALFORMED: [(&[u8], &str); 12] = [
    (b"\x07\x07\x05\x01", "new file"),
    (b"\x07\x07\x05\x01\x01a\x01b", "new file"),
    (b"\x06\x07\x01", "deleted file"),
    (b"\x05\x07\x01a", "compaction pointer"),
    (b"\x08\x01", "unknown tag"),
    (b"\x02\x05\0", "unknown tag"),
    (b"\x01\x01\xff", "comparator's name"),
    (b"\x02\x81\0", "log number"),
    (b"\x05\x01\x02a", "compaction pointer"),
    (b"\x03\x80", "next file number"),
    (b"\x04", "last sequence number"),
    (b"\x09", "previous log number"),
];

/// Asserts that these bytes are no edit, and that the error names the field.
fn assert_malformed(rt: &(impl Abort + AllocGlobal), bytes: &[u8], field: &str) -> Result<()> {
    let answer = VersionEdit::decode_from(rt.alloc(), bytes);
    let wanted = format!(in rt.alloc(); "Corruption: version edit: {field}")?;
    if let Err(
        Status {
            err: Some(text),
            ..
        },
    ) = &answer
    {
        assert!(rt; text.as_str() == wanted.as_str(), "{bytes:?}");
    }
    assert!(rt; failed_with(answer, StatusCode::Corruption)?, "{bytes:?}");
    Ok(())
}

#[test]
fn malformed(rt: HostRuntime) -> Result<()> {
    for (bytes, field) in &MALFORMED {
        assert_malformed(&rt, bytes, field)?;
    }
    Ok(())
}

/// Whether bytes are an edit. It is then written and read again, and otherwise the bytes are
/// corrupt.
fn is_edit(rt: &(impl Abort + AllocGlobal), bytes: &[u8]) -> Result<bool> {
    match VersionEdit::decode_from(rt.alloc(), bytes) {
        Ok(edit) => {
            let written = edit.encode(rt.alloc())?;
            assert!(rt; is_written_as(rt.alloc(), &written, &written)?, "{bytes:?}");
            Ok(true)
        }
        Err(status) if status.code == StatusCode::Corruption => Ok(false),
        Err(status) => Err(status),
    }
}

/// A cut edit is one where it ends between two of the twelve fields, or before the first.
#[test]
fn cut_anywhere(rt: HostRuntime) -> Result<()> {
    let whole = full(rt.alloc())?.encode(rt.alloc())?;
    let mut read = Vec::new(rt.alloc());
    for end in 0..whole.len() {
        if is_edit(&rt, &whole[..end])? {
            read.push(end)?;
        }
    }
    assert!(rt; read.len() == 12);
    Ok(())
}

/// With a byte raised by one an edit is another at least where that byte is of the name or of a
/// key.
#[test]
fn each_byte_raised(rt: HostRuntime) -> Result<()> {
    let mut bytes = full(rt.alloc())?.encode(rt.alloc())?;
    let mut read = Vec::new(rt.alloc());
    for offset in 0..bytes.len() {
        change_byte(&mut bytes, offset, 1);
        if is_edit(&rt, &bytes)? {
            read.push(offset)?;
        }
        change_byte(&mut bytes, offset, 255);
    }
    assert!(rt; read.len() >= 26 + 5 * 3);
    Ok(())
}

/// A cleared edit is written as no bytes.
#[test]
fn cleared(rt: HostRuntime) -> Result<()> {
    let mut edit = full(rt.alloc())?;
    edit.clear();
    assert!(rt; edit.encode(rt.alloc())?.is_empty());
    Ok(())
}

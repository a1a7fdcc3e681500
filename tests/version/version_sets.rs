//! The names that a store gives to its manifests, texts of `CURRENT`, the keys of a table's file,
//! and the files that edits leave.
use bytes::Bytes;
use leveldb_base::cmp::DefaultCmp;
use leveldb_base::error::{Result, StatusCode};
use leveldb_base::names::{current_file_name, manifest_file_name, temp_file_name};
use leveldb_base::types::{FileMetaData, FileNum};
use leveldb_version::version_edit::VersionEdit;
use leveldb_version_set::version_set::{check_key_ranges, current_text, parse_current_text};
use std::alloc::Global;
use std::process::Abort;
use support::failed_with;

/// Numbers, and the names of their manifests and temporary files.
const NAMES: [(FileNum, &str, &str); 3] = [
    (0, "db/MANIFEST-000000", "db/000000.dbtmp"),
    (19, "db/MANIFEST-000019", "db/000019.dbtmp"),
    (1234567, "db/MANIFEST-1234567", "db/1234567.dbtmp"),
];

#[test]
fn made_names(rt: HostRuntime) -> Result<()> {
    for (number, manifest, temp) in &NAMES {
        let name = manifest_file_name(rt.alloc(), "db", *number)?;
        assert!(rt; name.as_str() == *manifest);
        let name = temp_file_name(rt.alloc(), "db", *number)?;
        assert!(rt; name.as_str() == *temp);
    }
    Ok(())
}

#[test]
fn name_of_current(rt: HostRuntime) -> Result<()> {
    assert!(rt; current_file_name(rt.alloc(), "db")?.as_str() == "db/CURRENT");
    Ok(())
}

/// Asserts that a number is read in its text, after the name of a manifest that a line feed ends.
fn assert_read_again(rt: &(impl Abort + AllocGlobal), number: FileNum) -> Result<()> {
    let text = current_text(rt.alloc(), number)?;
    let (name, read) = parse_current_text(rt.alloc(), text.as_bytes())?;
    assert!(rt; read == number && name.starts_with("MANIFEST-"));
    assert!(rt; name.len() + 1 == text.len());
    Ok(())
}

#[test]
fn texts(rt: HostRuntime) -> Result<()> {
    for number in [0, 1, 999_999, 1_000_000, FileNum::MAX] {
        assert_read_again(&rt, number)?;
    }
    Ok(())
}

/// A new store's text has 16 bytes. A name with fewer digits is read as it is.
#[test]
fn known_texts(rt: HostRuntime) -> Result<()> {
    assert!(rt; current_text(rt.alloc(), 1)?.as_str() == "MANIFEST-000001\n");
    assert!(rt; parse_current_text(rt.alloc(), b"MANIFEST-7\n")? == ("MANIFEST-7", 7));
    Ok(())
}

const MALFORMED: [&[u8]; 12] = [
    b"",
    b"\n",
    b"MANIFEST-000001",
    b"MANIFEST-000001\r\n",
    b"MANIFEST-000001\n\n",
    b"MANIFEST-000001 \n",
    b"\nMANIFEST-000001\n",
    b"MANIFEST-\n",
    b"MANIFEST-+1\n",
    b"000001.log\n",
    b"CURRENT\n",
    b"MANIFEST-\xff\n",
];

#[test]
fn malformed_texts(rt: HostRuntime) -> Result<()> {
    for text in &MALFORMED {
        let answer = parse_current_text(rt.alloc(), text);
        assert!(rt; failed_with(answer, StatusCode::Corruption)?, "{text:?}");
    }
    Ok(())
}

/// A tag: the sequence number in seven bytes, after the type of a value.
fn tag(sequence: u8) -> [u8; 8] {
    [1, sequence, 0, 0, 0, 0, 0, 0]
}

/// A table's file with these keys: user keys, each before the tag of its sequence number.
fn file_of(alloc: Global, smallest: (&[u8], u8), largest: (&[u8], u8)) -> Result<FileMetaData> {
    let mut file = file(5, 177);
    file.smallest = key_of(alloc, smallest)?;
    file.largest = key_of(alloc, largest)?;
    Ok(file)
}

fn key_of(alloc: Global, parts: (&[u8], u8)) -> Result<Bytes> {
    let mut key = Vec::from_slice(alloc, parts.0)?;
    key.extend_from_slice(&tag(parts.1))?;
    Ok(Bytes::copy_from_slice(alloc, key.as_slice())?)
}

/// Smallest and largest keys, and whether they are a range: of one user key the greater sequence
/// number is the smaller internal key.
const RANGES: [((&[u8], u8), (&[u8], u8), bool); 6] = [
    ((b"a", 1), (b"b", 1), true),
    ((b"a", 1), (b"a", 1), true),
    ((b"a", 2), (b"a", 1), true),
    ((b"", 1), (b"", 1), true),
    ((b"a", 1), (b"a", 2), false),
    ((b"b", 1), (b"a", 1), false),
];

/// Asserts whether files are taken, a good one before the one that is looked at.
fn assert_taken(rt: &(impl Abort + AllocGlobal), file: FileMetaData, wanted: bool) -> Result<()> {
    let mut files = Vec::new(rt.alloc());
    files.push((0, file_of(rt.alloc(), (b"a", 1), (b"b", 1))?))?;
    files.push((1, file))?;
    let answer = check_key_ranges(rt.alloc(), &DefaultCmp, files.as_slice());
    if wanted {
        assert!(rt; answer.is_ok());
    } else {
        assert!(rt; failed_with(answer, StatusCode::Corruption)?);
    }
    Ok(())
}

#[test]
fn key_ranges(rt: HostRuntime) -> Result<()> {
    assert!(rt; check_key_ranges(rt.alloc(), &DefaultCmp, &[]).is_ok());
    for (smallest, largest, wanted) in &RANGES {
        let file = file_of(rt.alloc(), *smallest, *largest)?;
        assert_taken(&rt, file, *wanted)?;
    }
    Ok(())
}

/// A key of fewer than eight bytes has no tag. A file of the default keys has two of them.
#[test]
fn short_keys(rt: HostRuntime) -> Result<()> {
    assert_taken(&rt, file(5, 177), false)?;
    let mut cut = file_of(rt.alloc(), (b"a", 1), (b"b", 1))?;
    cut.smallest = Bytes::from_static(b"a\x01\x01\0\0\0\0");
    assert_taken(&rt, cut, false)?;
    let mut cut = file_of(rt.alloc(), (b"a", 1), (b"b", 1))?;
    cut.largest = Bytes::from_static(b"b\x01\x01\0\0\0\0");
    assert_taken(&rt, cut, false)
}

/// The size of the file that is live at a level and a number, by a look at each change in turn.
fn slow_live(edits: &[VersionEdit], level: usize, number: FileNum) -> Option<usize> {
    let mut live = None;
    for edit in edits {
        if edit.deleted.contains(&(level, number)) {
            live = None;
        }
        for (at, file) in &edit.new_files {
            if *at == level && file.num == number {
                live = Some(file.size);
            }
        }
    }
    live
}

fn file(number: FileNum, size: usize) -> FileMetaData {
    let mut file = FileMetaData::default();
    file.num = number;
    file.size = size;
    file
}

/// An edit's changes: the level, the number and the size of each file that it adds, and then the
/// level and the number of each that it deletes.
type Changes = (
    &'static [(usize, FileNum, usize)],
    &'static [(usize, FileNum)],
);

/// The first three edits of a store.
const CHANGES: [Changes; 3] = [
    (&[(0, 4, 40), (0, 5, 50), (1, 6, 60)], &[(2, 9)]),
    (&[(0, 5, 51), (2, 6, 60)], &[(0, 4), (0, 5), (1, 6)]),
    (&[(0, 4, 41), (2, 9, 90), (2, 9, 91)], &[]),
];

fn add_files(edit: &mut VersionEdit, files: &[(usize, FileNum, usize)]) -> Result<()> {
    for (level, number, size) in files {
        edit.add_file(*level, file(*number, *size))?;
    }
    Ok(())
}

fn delete_files(edit: &mut VersionEdit, files: &[(usize, FileNum)]) -> Result<()> {
    for (level, number) in files {
        edit.delete_file(*level, *number)?;
    }
    Ok(())
}

fn push_edit(edits: &mut Vec<VersionEdit>, alloc: Global, changes: &Changes) -> Result<()> {
    let mut edit = VersionEdit::new(alloc);
    add_files(&mut edit, changes.0)?;
    delete_files(&mut edit, changes.1)?;
    Ok(edits.push(edit)?)
}

fn three_edits(alloc: Global) -> Result<Vec<VersionEdit>> {
    let mut edits = Vec::new(alloc);
    for changes in &CHANGES {
        push_edit(&mut edits, alloc, changes)?;
    }
    Ok(edits)
}

/// Levels and numbers, and the size of the live file after each of the three edits: of a file that
/// is added, deleted and added again, one that the same edit deletes and adds, one that moves to
/// the next level, one that is deleted before it is there, and one that is added twice.
const LIVE: [(usize, FileNum, [Option<usize>; 3]); 6] = [
    (0, 4, [Some(40), None, Some(41)]),
    (0, 5, [Some(50), Some(51), Some(51)]),
    (1, 6, [Some(60), None, None]),
    (2, 6, [None, Some(60), Some(60)]),
    (2, 9, [None, None, Some(91)]),
    (1, 4, [None, None, None]),
];

fn live_after(edits: &[VersionEdit], count: usize, level: usize, number: FileNum) -> Option<usize> {
    slow_live(edits.get(..count).unwrap_or_default(), level, number)
}

#[test]
fn live_files(rt: HostRuntime) -> Result<()> {
    let edits = three_edits(rt.alloc())?;
    assert!(rt; edits.len() == 3);
    for (level, number, sizes) in &LIVE {
        let found = [1, 2, 3].map(|count| live_after(&edits, count, *level, *number));
        assert!(rt; found == *sizes, "{level} {number}");
    }
    Ok(())
}

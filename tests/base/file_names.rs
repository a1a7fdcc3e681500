//! Names by LevelDB's rules, and a slow reader of them that looks at each form in turn.
use leveldb_base::error::{Result, StatusCode};
use leveldb_base::names::{lock_file_name, log_file_name, parse_file_name, table_file_name};
use leveldb_base::types::{self, FileNum, FileType};
use std::process::Abort;
use support::failed_with;

// What comes before and after a number, and what such a file is for.
const FORMS: [(&[u8], &[u8], FileType); 5] = [
    (b"", b".log", FileType::Log),
    (b"", b".ldb", FileType::Table),
    (b"", b".sst", FileType::Table),
    (b"", b".dbtmp", FileType::Temp),
    (b"MANIFEST-", b"", FileType::Descriptor),
];

const WORDS: [(&[u8], FileType); 4] = [
    (b"CURRENT", FileType::Current),
    (b"LOCK", FileType::DBLock),
    (b"LOG", FileType::InfoLog),
    (b"LOG.old", FileType::InfoLog),
];

// What a digit counts, if the byte is one.
fn digit_value(digit: u8) -> Option<FileNum> {
    if digit.is_ascii_digit() {
        Some(FileNum::from(digit - b'0'))
    } else {
        None
    }
}

// The number with a digit after its others, if the byte is a digit and the number has 64 bits.
fn with_digit(number: FileNum, digit: u8) -> Option<FileNum> {
    let value = digit_value(digit)?;
    number.checked_mul(10)?.checked_add(value)
}

// The number of these digits, one of them at least.
fn slow_number(digits: &[u8]) -> Option<FileNum> {
    if digits.is_empty() {
        return None;
    }
    let mut number = 0;
    for digit in digits {
        number = with_digit(number, *digit)?;
    }
    Some(number)
}

// The type of a name without a number.
fn slow_word(name: &[u8]) -> Option<FileType> {
    for (word, kind) in &WORDS {
        if name == *word {
            return Some(*kind);
        }
    }
    None
}

// The number between these two.
fn number_between(name: &[u8], front: &[u8], back: &[u8]) -> Option<FileNum> {
    let rest = name.strip_prefix(front)?;
    slow_number(rest.strip_suffix(back)?)
}

// The number and the type of a name with a number.
fn slow_form(name: &[u8]) -> Option<(FileNum, FileType)> {
    for (front, back, kind) in &FORMS {
        if let Some(number) = number_between(name, front, back) {
            return Some((number, *kind));
        }
    }
    None
}

fn slow_read(name: &[u8]) -> Option<(FileNum, FileType)> {
    match slow_word(name) {
        Some(kind) => Some((0, kind)),
        None => slow_form(name),
    }
}

/// The crate's own rows, the greatest number, and leading zeros.
const NAMES: [(&str, FileNum, FileType); 11] = [
    ("CURRENT", 0, FileType::Current),
    ("LOCK", 0, FileType::DBLock),
    ("LOG", 0, FileType::InfoLog),
    ("LOG.old", 0, FileType::InfoLog),
    ("MANIFEST-01234", 1234, FileType::Descriptor),
    ("001122.sst", 1122, FileType::Table),
    ("001122.ldb", 1122, FileType::Table),
    ("000003.log", 3, FileType::Log),
    ("7.dbtmp", 7, FileType::Temp),
    ("18446744073709551615.log", FileNum::MAX, FileType::Log),
    (
        "000018446744073709551615.ldb",
        FileNum::MAX,
        FileType::Table,
    ),
];

#[test]
fn read_names(rt: HostRuntime) -> Result<()> {
    for (name, number, kind) in &NAMES {
        let wanted = (*number, *kind);
        assert!(rt;
            types::parse_file_name(rt.alloc(), name)? == wanted,
            "{name}"
        );
        assert!(rt; slow_read(name.as_bytes()) == Some(wanted), "{name}");
    }
    Ok(())
}

const NO_NAMES: [&str; 28] = [
    "",
    ".",
    ".log",
    "log",
    "xyz.LOCK",
    "01a.sst",
    "0011.abc",
    "MANIFEST-",
    "MANIFEST-trolol",
    "MANIFEST-+1",
    "MANIFEST-1.log",
    "MANIFEST",
    "+1.log",
    "-1.log",
    " 1.log",
    "1.log ",
    "1..log",
    "1.LOG",
    "1.",
    "1",
    "LOG.older",
    "CURRENT1",
    "LOCK.log",
    "18446744073709551616.log",
    "99999999999999999999999.ldb",
    "/000001.log",
    "db/LOCK",
    "\u{661}.log",
];

#[test]
fn no_names(rt: HostRuntime) -> Result<()> {
    for name in &NO_NAMES {
        let answer = parse_file_name(rt.alloc(), name);
        assert!(rt; failed_with(answer, StatusCode::InvalidArgument)?, "{name}");
        assert!(rt; slow_read(name.as_bytes()).is_none(), "{name}");
    }
    Ok(())
}

/// Six digits at least, and more where the number has more.
const MADE: [(FileNum, &str, &str); 4] = [
    (122, "abc/000122.log", "abc/000122.ldb"),
    (0, "abc/000000.log", "abc/000000.ldb"),
    (1234567, "abc/1234567.log", "abc/1234567.ldb"),
    (
        FileNum::MAX,
        "abc/18446744073709551615.log",
        "abc/18446744073709551615.ldb",
    ),
];

#[test]
fn made_names(rt: HostRuntime) -> Result<()> {
    for (number, log, table) in &MADE {
        assert!(rt; log_file_name(rt.alloc(), "abc", *number)?.as_str() == *log);
        assert!(rt; table_file_name(rt.alloc(), "abc", *number)?.as_str() == *table);
    }
    assert!(rt; lock_file_name(rt.alloc(), "abc")?.as_str() == "abc/LOCK");
    Ok(())
}

const CHANGED: [&[u8]; 5] = [
    b"MANIFEST-000001",
    b"000012.log",
    b"LOG.old",
    b"000009.dbtmp",
    b"3.sst",
];

/// Asserts that the reader and the slow one agree on these bytes, where they are a text.
fn assert_read_alike(rt: &(impl Abort + AllocGlobal), name: &[u8]) {
    if let Ok(text) = std::str::from_utf8(name) {
        let read = parse_file_name(rt.alloc(), text).ok();
        assert!(rt; read == slow_read(name), "{text}");
    }
}

/// A name with the byte at `offset` changed to some of those that names have, and to some beside
/// them.
fn assert_changes(rt: &(impl Abort + AllocGlobal), name: &[u8], offset: usize) -> Result<()> {
    let mut changed = name.to_vec(rt.alloc())?;
    for byte in b"+./09:bl" {
        if let Some(slot) = changed.get_mut(offset) {
            *slot = *byte;
        }
        assert_read_alike(rt, &changed);
    }
    Ok(())
}

#[test]
fn changed_names(rt: HostRuntime) -> Result<()> {
    for name in &CHANGED {
        for offset in 0..name.len() {
            assert_changes(&rt, name, offset)?;
        }
    }
    Ok(())
}

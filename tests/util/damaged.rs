//! Damaged files: what can be read is printed, and the reason.
use super::files::{log_of, prints, put_batch, run, with_file};
use super::theirs::{LOG, LOG_TEXT, MANIFEST, MANIFEST_TEXT, TABLE};
use leveldb_base::error::Result;
use std::alloc::Global;
use std::process::Abort;
use support::change_byte;

/// A file of records, and what is printed of each.
struct Whole {
    path: &'static str,
    bytes: &'static [u8],
    text: &'static [u8],
    /// Where each record ends, in the file and in the text.
    ends: &'static [(usize, usize)],
}

const WHOLE_LOG: Whole = Whole {
    path: "db/000006.log",
    bytes: LOG,
    text: LOG_TEXT,
    ends: &[(39, 79), (58, 106)],
};

const WHOLE_MANIFEST: Whole = Whole {
    path: "db/MANIFEST-000002",
    bytes: MANIFEST,
    text: MANIFEST_TEXT,
    ends: &[(35, 71), (50, 163), (98, 309), (146, 464), (216, 692)],
};

impl Whole {
    /// The record that this byte of the file is in: where it begins and ends, in the file and in
    /// the text.
    fn record_of(&self, at: usize) -> ((usize, usize), (usize, usize)) {
        let mut begin = (0, 0);
        for end in self.ends {
            if at < end.0 {
                return (begin, *end);
            }
            begin = *end;
        }
        (begin, begin)
    }

    /// Whether for these bytes in place of the file's it prints the text before a record's, a line
    /// that says what is wrong at its offset, and the text from a later record on.
    fn prints_around(
        &self,
        alloc: Global,
        bytes: &[u8],
        begin: (usize, usize),
        next: usize,
    ) -> Result<bool> {
        let mut env = with_file(alloc, self.path, bytes)?;
        let printed = run(alloc, &mut env, &["dump", self.path])?;
        let line = format!(in alloc; "{}: offset {}: ", self.path, begin.0)?;
        let (before, after) = (&self.text[..begin.1], &self.text[next..]);
        let Some(rest) = printed.out.strip_prefix(before) else {
            return Ok(false);
        };
        let Some(rest) = rest.strip_prefix(line.as_bytes()) else {
            return Ok(false);
        };
        let Some(reason) = rest.strip_suffix(after) else {
            return Ok(false);
        };
        let lines = reason.iter().filter(|byte| **byte == b'\n').count();
        Ok(reason.len() > 5 && lines == 1 && reason.ends_with(b"\n") && printed.status == 1)
    }

    /// Whether a file that is cut anywhere prints what is whole, and where it is cut.
    fn is_printed_cut(&self, alloc: Global) -> Result<bool> {
        for at in 0..self.bytes.len() {
            let (begin, _) = self.record_of(at);
            let cut = &self.bytes[..at];
            let is_right = if begin.0 == at {
                let mut env = with_file(alloc, self.path, cut)?;
                prints(
                    alloc,
                    &mut env,
                    &["dump", self.path],
                    &self.text[..begin.1],
                    0,
                )?
            } else {
                self.prints_around(alloc, cut, begin, self.text.len())?
            };
            if !is_right {
                return Ok(false);
            }
        }
        Ok(true)
    }

    /// Whether a file of which any byte is changed so prints all other records, and where that is.
    fn is_printed_changed(&self, alloc: Global, amount: u8) -> Result<bool> {
        for at in 0..self.bytes.len() {
            let (begin, end) = self.record_of(at);
            let mut bytes = self.bytes.to_vec(alloc)?;
            change_byte(&mut bytes, at, amount);
            if !self.prints_around(alloc, &bytes, begin, end.1)? {
                return Ok(false);
            }
        }
        Ok(true)
    }
}

#[test]
fn a_log_that_is_cut(rt: HostRuntime) -> Result<()> {
    assert!(rt; WHOLE_LOG.is_printed_cut(rt.alloc())?);
    Ok(())
}

#[test]
fn a_manifest_that_is_cut(rt: HostRuntime) -> Result<()> {
    assert!(rt; WHOLE_MANIFEST.is_printed_cut(rt.alloc())?);
    Ok(())
}

#[test]
fn a_log_with_a_changed_byte(rt: HostRuntime) -> Result<()> {
    for amount in [1, 128, 255] {
        assert!(rt;
            WHOLE_LOG.is_printed_changed(rt.alloc(), amount)?,
            "{amount}"
        );
    }
    Ok(())
}

#[test]
fn a_manifest_with_a_changed_byte(rt: HostRuntime) -> Result<()> {
    for amount in [1, 128, 255] {
        assert!(rt;
            WHOLE_MANIFEST.is_printed_changed(rt.alloc(), amount)?,
            "{amount}"
        );
    }
    Ok(())
}

/// Whether the parts of a table of these bytes are printed with a line that says what is wrong.
fn is_damaged_table(alloc: Global, bytes: &[u8]) -> Result<bool> {
    let mut env = with_file(alloc, "000008.ldb", bytes)?;
    let printed = run(alloc, &mut env, &["dump", "--blocks", "000008.ldb"])?;
    let mut lines = printed.out.split(|byte| *byte == b'\n');
    Ok(printed.status == 1 && lines.any(|line| line.starts_with(b"000008.ldb: ")))
}

#[test]
fn a_table_that_is_cut(rt: HostRuntime) -> Result<()> {
    for at in 0..TABLE.len() {
        assert!(rt; is_damaged_table(rt.alloc(), &TABLE[..at])?, "cut at {at}");
    }
    Ok(())
}

#[test]
fn a_table_with_a_changed_byte(rt: HostRuntime) -> Result<()> {
    for at in 0..TABLE.len() {
        let mut bytes = TABLE.to_vec(rt.alloc())?;
        change_byte(&mut bytes, at, 1);
        assert!(rt; is_damaged_table(rt.alloc(), &bytes)?, "byte {at}");
    }
    Ok(())
}

/// A block that is damaged is a line, and nothing else of a table is needed for its pairs.
#[test]
fn a_damaged_block(rt: HostRuntime) -> Result<()> {
    let mut bytes = TABLE.to_vec(rt.alloc())?;
    change_byte(&mut bytes, 3, 1);
    let mut env = with_file(rt.alloc(), "000008.ldb", &bytes)?;
    let text = b"000008.ldb: Corruption: block at 0: wrong checksum\n";
    assert!(rt; prints(rt.alloc(), &mut env, &["dump", "000008.ldb"], text, 1)?);
    Ok(())
}

/// Three batches, the second of three fragments.
fn long_log(alloc: Global) -> Result<Vec<u8>> {
    let value = vec![in alloc; b'x'; 70000]?;
    let first = put_batch(alloc, 1, b"a", b"1")?;
    let second = put_batch(alloc, 2, b"b", &value)?;
    let third = put_batch(alloc, 3, b"c", b"3")?;
    log_of(alloc, &[&first, &second, &third])
}

const FIRST: &[u8] = b"--- offset 0; sequence 1\n  put 'a' '1'\n";

const THIRD: &[u8] = b"--- offset 70063; sequence 3\n  put 'c' '3'\n";

/// Whether the long log with a changed byte prints its first batch, these lines and its last batch.
fn prints_long(alloc: Global, at: usize, lines: &[u8]) -> Result<bool> {
    let mut bytes = long_log(alloc)?;
    change_byte(&mut bytes, at, 1);
    let mut env = with_file(alloc, "000003.log", &bytes)?;
    let text = [FIRST, lines, THIRD].concat(alloc)?;
    prints(alloc, &mut env, &["dump", "000003.log"], &text, 1)
}

#[test]
fn fragments_of_a_long_record(rt: HostRuntime) -> Result<()> {
    let cases: &[(usize, &[u8])] = &[
        (
            100,
            b"000003.log: offset 24: wrong checksum\n000003.log: offset 32768: record without its first part\n000003.log: offset 65536: record without its first part\n",
        ),
        (
            32800,
            b"000003.log: offset 32768: wrong checksum\n000003.log: offset 65536: record without its first part\n",
        ),
        (65600, b"000003.log: offset 65536: wrong checksum\n"),
    ];
    for (at, lines) in cases {
        assert!(rt; prints_long(rt.alloc(), *at, lines)?, "byte {at}");
    }
    Ok(())
}

/// Where a long record's first fragment is lost with all of its block, what comes later is read.
#[test]
fn a_long_record_is_printed(rt: HostRuntime) -> Result<()> {
    let bytes = long_log(rt.alloc())?;
    let mut env = with_file(rt.alloc(), "000003.log", &bytes)?;
    let printed = run(rt.alloc(), &mut env, &["dump", "000003.log"])?;
    assert!(rt; printed.status == 0 && printed.out.starts_with(FIRST));
    assert!(rt; printed.out.ends_with(THIRD));
    let second = b"--- offset 24; sequence 2\n  put 'b' '".len() + 70000 + b"'\n".len();
    assert!(rt; printed.out.len() == FIRST.len() + second + THIRD.len());
    Ok(())
}

/// Zeros at the end are one line, however many they are.
#[test]
fn zeros_at_the_end(rt: HostRuntime) -> Result<()> {
    for count in [1, 6, 7, 40000, 100_000] {
        let mut bytes = LOG.to_vec(rt.alloc())?;
        bytes.resize(LOG.len() + count, 0)?;
        let mut env = with_file(rt.alloc(), "000006.log", &bytes)?;
        let line = b"000006.log: offset 58: zeros in place of a record\n".as_slice();
        let text = [LOG_TEXT, line].concat(rt.alloc())?;
        assert!(rt;
            prints(rt.alloc(), &mut env, &["dump", "000006.log"], &text, 1)?,
            "{count}"
        );
    }
    Ok(())
}

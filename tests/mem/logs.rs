//! Logs of known lengths, read in pieces, cut and damaged; and what is read of a log in memory.

use super::checks::are_records;
use leveldb_base::error::{Result, Status, StatusCode, err};
use leveldb_env::env::{Env, Sink, Source};
use leveldb_env::mem_env::MemEnv;
use leveldb_mem::log::{LogReader, LogWriter, ReaderCore, WriterCore, read_log_file, read_records};
use std::alloc::{AllocError, Global};
use std::process::Abort;
use support::{change_byte, failed_with};

const NINE: &[u8] = b"abcdefghi";

const TWELVE: &[u8] = b"123456789012";

const TWENTY_TWO: &[u8] = b"0101010101010101010101";

/// The records of a log in memory, and whether it ends between two of them.
fn records_of(alloc: Global, bytes: &[u8]) -> Result<(Vec<Vec<u8>>, bool)> {
    let mut source = bytes;
    read_records(alloc, &mut source, true)
}

/// Records, and how many bytes each adds to a log in blocks of 17.
const SMALL_LOG: [(&[u8], usize); 4] = [(NINE, 16), (b"", 0), (TWELVE, 27), (TWENTY_TWO, 50)];

/// Records of 9, 12 and 22 bytes in blocks of 17: they end at 16, 43 and 93, and a byte of filler
/// is at 16.
fn small_log(rt: &(impl Abort + AllocGlobal)) -> Result<Vec<u8>> {
    let mut writer = LogWriter::sized(rt.alloc(), Vec::new(rt.alloc()), 17);
    for (record, length) in &SMALL_LOG {
        assert!(rt; writer.add_record(record)? == *length);
    }
    writer.flush()?;
    assert!(rt; writer.sink.len() == 93);
    Ok(writer.sink)
}

/// What is read of that log. From its end on every record is empty.
const READ: [&[u8]; 5] = [NINE, TWELVE, TWENTY_TWO, b"", b""];

fn assert_read<R: Source>(
    rt: &impl Abort,
    reader: &mut LogReader<R>,
    record: &mut Vec<u8>,
    wanted: &[u8],
) -> Result<()> {
    assert!(rt; reader.read(record)? == wanted.len());
    assert!(rt; record.as_slice() == wanted);
    Ok(())
}

fn assert_all_read<R: Source>(
    rt: &impl Abort,
    reader: &mut LogReader<R>,
    record: &mut Vec<u8>,
    wanted: &[&[u8]],
) -> Result<()> {
    for bytes in wanted {
        assert_read(rt, reader, record, bytes)?;
    }
    Ok(())
}

fn assert_corruption<R: Source>(
    rt: &impl Abort,
    reader: &mut LogReader<R>,
    record: &mut Vec<u8>,
) -> Result<()> {
    assert!(rt; failed_with(reader.read(record), StatusCode::Corruption)?);
    Ok(())
}

/// A source that gives at most `most` bytes a read.
#[derive(Drop)]
struct Slow<'a> {
    rest: &'a [u8],
    most: usize,
    // The most bytes that a read asked for.
    asked: usize,
}

impl Source for Slow<'_> {
    ghost gives = { ? };

    fn read_some(&mut self, target: &mut [u8]) -> Result<usize> {
        self.asked = self.asked.max(target.len());
        let count = self.rest.len().min(target.len()).min(self.most);
        let (first, others) = self.rest.split_at(count);
        target[..count].copy_from_slice(first);
        self.rest = others;
        Ok(count)
    }
}

/// A source and sink of which every call fails.
#[derive(Drop)]
struct Failing(Global);

impl Source for Failing {
    ghost gives = { ? };

    fn read_some(&mut self, _target: &mut [u8]) -> Result<usize> {
        err(self.0, StatusCode::PermissionDenied, "no read")
    }
}

impl Sink for Failing {
    ghost puts = { ? };

    ghost flushes = { ? };

    fn put_all(&mut self, _bytes: &[u8]) -> Result<()> {
        err(self.0, StatusCode::PermissionDenied, "no put")
    }

    fn flush(&mut self) -> Result<()> {
        err(self.0, StatusCode::PermissionDenied, "no flush")
    }
}

// The batch that puts "1" under "a", in LevelDB's format.
const BATCH: &[u8] = b"\x01\0\0\0\0\0\0\0\x01\0\0\0\x01\x01a\x011";

#[test]
fn log_of_one_batch_has_24_bytes(rt: HostRuntime) -> Result<()> {
    let mut log = Vec::new(rt.alloc());
    let mut core = WriterCore::new(rt.alloc());
    assert!(rt; core.add_record(&mut log, BATCH)? == 24);
    assert!(rt; log.len() == 24);
    assert!(rt; log.as_slice().get(4..8) == Some([17, 0, 1, 1].as_slice()));
    Ok(())
}

/// A log of two records, and how many bytes the first of them took.
fn log_of_two(alloc: Global, first: &[u8], second: &[u8]) -> Result<(Vec<u8>, usize)> {
    let mut writer = LogWriter::new(alloc, Vec::new(alloc));
    let length = writer.add_record(first)?;
    writer.add_record(second)?;
    Ok((writer.sink, length))
}

/// Whether a log has these records, and ends between two of them or not.
fn has_records(alloc: Global, log: &[u8], wanted: &[&[u8]], is_whole: bool) -> Result<bool> {
    let (records, ends_well) = records_of(alloc, log)?;
    Ok(ends_well == is_whole && are_records(&records, wanted))
}

// How long a log of a record of this length is, and with a record of one byte after it. From
// LevelDB's format: a block has 32768 bytes, a header 7.
const LENGTHS: [(usize, usize, usize); 4] = [
    (32761, 32768, 32776),
    (32762, 32776, 32784),
    (32754, 32761, 32776),
    (32755, 32762, 32776),
];

#[test]
fn lengths_of_logs(rt: HostRuntime) -> Result<()> {
    for (length, one, two) in &LENGTHS {
        let record = vec![in rt.alloc(); b'r'; *length]?;
        let (log, first) = log_of_two(rt.alloc(), &record, b"x")?;
        assert!(rt;
            (first, log.len()) == (*one, *two),
            "a record of {length} bytes"
        );
        assert!(rt; has_records(rt.alloc(), &log, &[&record, b"x"], true)?);
    }
    Ok(())
}

#[test]
fn log_goes_on_at_an_offset(rt: HostRuntime) -> Result<()> {
    let mut writer = LogWriter::new_with_off(rt.alloc(), Vec::new(rt.alloc()), 3 * 32768 - 6);
    assert!(rt; writer.add_record(b"x")? == 6 + 8);
    assert!(rt; writer.sink.as_slice().get(..6) == Some([0; 6].as_slice()));
    Ok(())
}

#[test]
fn pieces_of_any_length(rt: HostRuntime) -> Result<()> {
    let log = small_log(&rt)?;
    let mut record = Vec::new(rt.alloc());
    for most in 1..10 {
        let source = Slow {
            rest: &log,
            most,
            asked: 0,
        };
        let mut reader = LogReader::sized(rt.alloc(), source, true, 17);
        assert_all_read(&rt, &mut reader, &mut record, &READ)?;
    }
    Ok(())
}

#[test]
fn four_kilobytes_a_read(rt: HostRuntime) -> Result<()> {
    let long = vec![in rt.alloc(); 7u8; 40000]?;
    let mut writer = LogWriter::new(rt.alloc(), Vec::new(rt.alloc()));
    writer.add_record(&long)?;
    writer.add_record(b"x")?;
    let source = Slow {
        rest: &writer.sink,
        most: usize::MAX,
        asked: 0,
    };
    let mut reader = LogReader::new(rt.alloc(), source, true);
    let mut record = Vec::new(rt.alloc());
    assert_all_read(&rt, &mut reader, &mut record, &[&long, b"x", b""])?;
    assert!(rt; reader.source.asked == 4096);
    Ok(())
}

// What a status prints where a call failed, and no text where it didn't. A status without a text
// had no memory for it.
fn error_text<T: Drop>(alloc: Global, answer: Result<T>) -> Result<String> {
    match answer {
        Ok(_) => Ok(String::new(alloc)),
        Err(status) if status.err.is_none() => Err(Status::from(AllocError)),
        Err(status) => Ok(format!(in alloc; "{status}")?),
    }
}

/// The small log with a wrong checksum in its first fragment.
fn damaged_log(rt: &(impl Abort + AllocGlobal)) -> Result<Vec<u8>> {
    let mut log = small_log(rt)?;
    change_byte(&mut log, 2, 1);
    Ok(log)
}

/// Whether the next read fails with a wrong checksum.
fn is_wrong_checksum(
    alloc: Global,
    reader: &mut LogReader<&[u8]>,
    record: &mut Vec<u8>,
) -> Result<bool> {
    let text = error_text(alloc, reader.read(record))?;
    Ok(text.as_str() == "Corruption: Invalid Checksum")
}

#[test]
fn wrong_checksum_is_passed(rt: HostRuntime) -> Result<()> {
    let log = damaged_log(&rt)?;
    let mut record = Vec::new(rt.alloc());
    let mut reader = LogReader::sized(rt.alloc(), log.as_slice(), true, 17);
    assert!(rt; is_wrong_checksum(rt.alloc(), &mut reader, &mut record)?);
    assert_all_read(&rt, &mut reader, &mut record, &READ[1..4])
}

#[test]
fn wrong_checksum_is_taken_unchecked(rt: HostRuntime) -> Result<()> {
    let log = damaged_log(&rt)?;
    let mut record = Vec::new(rt.alloc());
    let mut reader = LogReader::sized(rt.alloc(), log.as_slice(), false, 17);
    assert_read(&rt, &mut reader, &mut record, NINE)
}

// The records that end at or before this offset.
fn records_before(offset: usize) -> &'static [&'static [u8]] {
    let count = [16, 43, 93].iter().filter(|end| **end <= offset).count();
    READ.get(..count).unwrap_or_default()
}

/// Reads a log that is cut at `end`.
fn assert_cut(rt: &(impl Abort + AllocGlobal), log: &[u8], end: usize) -> Result<()> {
    let mut record = Vec::new(rt.alloc());
    let cut = log.get(..end).unwrap_or_default();
    let mut reader = LogReader::sized(rt.alloc(), cut, true, 17);
    assert_all_read(rt, &mut reader, &mut record, records_before(end))?;
    if [0, 16, 43, 93].contains(&end) {
        return assert_read(rt, &mut reader, &mut record, b"");
    }
    assert_corruption(rt, &mut reader, &mut record)?;
    assert_corruption(rt, &mut reader, &mut record)?;
    Ok(())
}

#[test]
fn cut_anywhere(rt: HostRuntime) -> Result<()> {
    let log = small_log(&rt)?;
    for end in 0..94 {
        assert_cut(&rt, &log, end)?;
    }
    Ok(())
}

fn assert_damage_at(rt: &(impl Abort + AllocGlobal), log: &[u8], offset: usize) -> Result<()> {
    let mut record = Vec::new(rt.alloc());
    let mut reader = LogReader::sized(rt.alloc(), log, true, 17);
    assert_all_read(rt, &mut reader, &mut record, records_before(offset))?;
    assert_corruption(rt, &mut reader, &mut record)?;
    Ok(())
}

#[test]
fn each_byte_raised(rt: HostRuntime) -> Result<()> {
    let mut log = small_log(&rt)?;
    for offset in 0..93 {
        change_byte(&mut log, offset, 1);
        assert_damage_at(&rt, &log, offset)?;
        change_byte(&mut log, offset, 255);
    }
    Ok(())
}

/// Fragments of one byte after any checksum: of no type, a middle and a last one with no first, and
/// of a type past the last; a first one and then a whole or a first one; and a whole one of no
/// byte.
const MISPLACED: [&[u8]; 7] = [
    b"\0\0\0\0\x01\0\0x",
    b"\0\0\0\0\x01\0\x03x",
    b"\0\0\0\0\x01\0\x04x",
    b"\0\0\0\0\x01\0\x05x",
    b"\0\0\0\0\x01\0\x02x\0\0\0\0\x01\0\x01x",
    b"\0\0\0\0\x01\0\x02x\0\0\0\0\x01\0\x02x",
    b"\0\0\0\0\0\0\x01",
];

#[test]
fn misplaced_fragments(rt: HostRuntime) -> Result<()> {
    let mut record = Vec::new(rt.alloc());
    for log in &MISPLACED {
        let mut reader = LogReader::new(rt.alloc(), *log, false);
        let answer = reader.read(&mut record);
        assert!(rt; failed_with(answer, StatusCode::Corruption)?, "{log:?}");
    }
    Ok(())
}

#[test]
fn whole_and_torn_logs(rt: HostRuntime) -> Result<()> {
    let (log, _) = log_of_two(rt.alloc(), NINE, TWELVE)?;
    assert!(rt; has_records(rt.alloc(), &log, &[NINE, TWELVE], true)?);
    let torn = log.as_slice().get(..34).unwrap_or_default();
    assert!(rt; has_records(rt.alloc(), torn, &[NINE], false)?);
    Ok(())
}

// A file's name, how many bytes of the log of two records it has, and how many records are read.
const FILES: [(&str, usize, usize); 3] = [("empty", 0, 0), ("torn", 34, 1), ("clean", 35, 2)];

fn write_file(env: &mut MemEnv, name: &str, bytes: &[u8]) -> Result<()> {
    let mut file = env.open_writable_file(name)?;
    env.append(&mut file, bytes)
}

#[test]
fn files_of_logs(rt: HostRuntime) -> Result<()> {
    let (log, _) = log_of_two(rt.alloc(), NINE, TWELVE)?;
    let mut env = MemEnv::new(rt.alloc());
    for (name, length, count) in &FILES {
        write_file(
            &mut env,
            name,
            log.as_slice().get(..*length).unwrap_or_default(),
        )?;
        let (records, is_whole) = read_log_file(rt.alloc(), &mut env, name)?;
        let wanted = [NINE, TWELVE].get(..*count).unwrap_or_default();
        assert!(rt; are_records(&records, wanted), "the {name} log");
        assert!(rt; is_whole == (*name != "torn"), "the {name} log");
    }
    let missing = read_log_file(rt.alloc(), &mut env, "missing");
    assert!(rt; failed_with(missing, StatusCode::NotFound)?);
    Ok(())
}

/// Asserts that a broken writer writes no record, and says why.
fn assert_broken(
    rt: &(impl Abort + AllocGlobal),
    core: &mut WriterCore,
    record: &[u8],
) -> Result<()> {
    let mut log = Vec::new(rt.alloc());
    let text = error_text(rt.alloc(), core.add_record(&mut log, record))?;
    assert!(rt; text.as_str() == "IOError: reopen the store" && log.is_empty());
    Ok(())
}

/// A failing sink breaks a writer, whatever its next sink is.
#[test]
fn broken_writer_stays_broken(rt: HostRuntime) -> Result<()> {
    let mut core = WriterCore::new(rt.alloc());
    let mut failing = Failing(rt.alloc());
    assert!(rt; core.add_record(&mut failing, b"")? == 0);
    let answer = core.add_record(&mut failing, b"x");
    assert!(rt; failed_with(answer, StatusCode::PermissionDenied)?);
    assert_broken(&rt, &mut core, b"x")?;
    assert_broken(&rt, &mut core, b"")?;
    let mut log = Vec::new(rt.alloc());
    assert!(rt; core.flush(&mut log).is_err() && log.is_empty());
    Ok(())
}

#[test]
fn failed_flush_breaks_a_writer(rt: HostRuntime) {
    let mut core = WriterCore::new(rt.alloc());
    assert!(rt; core.flush(&mut Failing(rt.alloc())).is_err());
    let mut log = Vec::new(rt.alloc());
    assert!(rt; core.add_record(&mut log, b"x").is_err());
}

#[test]
fn failed_reader_stays_failed(rt: HostRuntime) -> Result<()> {
    let log = small_log(&rt)?;
    let mut core = ReaderCore::sized(rt.alloc(), true, 17);
    let mut record = Vec::new(rt.alloc());
    let answer = core.read(&mut Failing(rt.alloc()), &mut record);
    assert!(rt; failed_with(answer, StatusCode::PermissionDenied)?);
    let mut source = log.as_slice();
    let answer = core.read(&mut source, &mut record);
    assert!(rt; failed_with(answer, StatusCode::Corruption)?);
    assert!(rt; source.len() == 93);
    Ok(())
}

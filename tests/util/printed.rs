//! Dumps of whole files and of records that are no batch or no edit.
use super::files::{log_of, prints, put_batch, with_file};
use super::theirs::{LOG, TABLE};
use leveldb_base::error::Result;
use leveldb_env::mem_env::MemEnv;
use std::alloc::Global;
use std::process::Abort;

/// Whether the dump of a log of this record is this text.
fn prints_record(alloc: Global, record: &[u8], text: &[u8], status: u8) -> Result<bool> {
    let log = log_of(alloc, &[record])?;
    let mut env = with_file(alloc, "000003.log", &log)?;
    prints(alloc, &mut env, &["dump", "000003.log"], text, status)
}

#[test]
fn records_that_are_no_batch(rt: HostRuntime) -> Result<()> {
    let cases: &[(&[u8], &[u8])] = &[
        (
            b"elevenbytes",
            b"--- offset 0; log record length 11 is too small\n",
        ),
        (
            b"\x07\0\0\0\0\0\0\0\x01\0\0\0",
            b"--- offset 0; sequence 7\n  error: Corruption: WriteBatch has wrong count\n",
        ),
        (
            b"\x07\0\0\0\0\0\0\0\x01\0\0\0\0\x01a\0\x01b",
            b"--- offset 0; sequence 7\n  del 'a'\n  del 'b'\n  error: Corruption: WriteBatch has wrong count\n",
        ),
        (
            b"\x07\0\0\0\0\0\0\0\x02\0\0\0\0\x01a\x02\x01b",
            b"--- offset 0; sequence 7\n  del 'a'\n  error: Corruption: unknown WriteBatch tag\n",
        ),
        (
            b"\x07\0\0\0\0\0\0\0\x01\0\0\0\x01\x01a\x02b",
            b"--- offset 0; sequence 7\n  error: Corruption: bad WriteBatch Put\n",
        ),
        (
            b"\x07\0\0\0\0\0\0\0\x01\0\0\0\0\x02a",
            b"--- offset 0; sequence 7\n  error: Corruption: bad WriteBatch Delete\n",
        ),
    ];
    for (record, text) in cases {
        assert!(rt; prints_record(rt.alloc(), record, text, 1)?);
    }
    Ok(())
}

#[test]
fn numbers_of_all_lengths(rt: HostRuntime) -> Result<()> {
    let cases: &[(u64, &[u8])] = &[
        (0, b"0"),
        (9, b"9"),
        (10, b"10"),
        (1_234_567_890, b"1234567890"),
        (u64::MAX, b"18446744073709551615"),
    ];
    for (number, digits) in cases {
        let mut text = Vec::new(rt.alloc());
        text.extend_from_slice(b"--- offset 0; sequence ")?;
        text.extend_from_slice(digits)?;
        text.extend_from_slice(b"\n  put 'a' '1'\n")?;
        let batch = put_batch(rt.alloc(), *number, b"a", b"1")?;
        assert!(rt; prints_record(rt.alloc(), &batch, &text, 0)?);
    }
    Ok(())
}

#[test]
fn bytes_in_hex(rt: HostRuntime) -> Result<()> {
    let mut env = with_file(rt.alloc(), "db/000006.log", LOG)?;
    let text =
        b"--- offset 0; sequence 9\n  put '' ''\n  del '6b65793031'\n  put '69742773' 'c3a409'\n--- offset 39; sequence 12\n";
    assert!(rt;
        prints(
            rt.alloc(),
            &mut env,
            &["dump", "--hex", "db/000006.log"],
            text,
            0
        )?
    );
    Ok(())
}

/// Each byte as LevelDB escapes it.
#[test]
fn each_byte(rt: HostRuntime) -> Result<()> {
    for byte in 0..=255u8 {
        let batch = put_batch(rt.alloc(), 1, &[byte], b"")?;
        let mut text = Vec::new(rt.alloc());
        text.extend_from_slice(b"--- offset 0; sequence 1\n  put '")?;
        if (32..127).contains(&byte) {
            text.push(byte)?;
        } else {
            text.extend_from_slice(format!(in rt.alloc(); "\\x{byte:02x}")?.as_bytes())?;
        }
        text.extend_from_slice(b"' ''\n")?;
        assert!(rt; prints_record(rt.alloc(), &batch, &text, 0)?, "byte {byte}");
    }
    Ok(())
}

#[test]
fn parts_of_a_table(rt: HostRuntime) -> Result<()> {
    let mut env = with_file(rt.alloc(), "000008.sst", TABLE)?;
    let text =
        b"metaindex at 122, 47 bytes\nindex at 174, 22 bytes\n'filter.leveldb.BuiltinBloomFilter2': 1 filters, a block at 99, 18 bytes\nblock at 0, 94 bytes\n'\\x00\\x7f\\xff~ ' @ 8 : val => '\\x0a'\n'key00' @ 1 : val => ''\n'key01' @ 2 : val => 'v'\n'key02' @ 6 : val => 'it's \\ \"new\"'\n'key04' @ 5 : val => 'vvvv'\n";
    assert!(rt;
        prints(
            rt.alloc(),
            &mut env,
            &["dump", "--blocks", "000008.sst"],
            text,
            0
        )?
    );
    Ok(())
}

#[test]
fn texts_of_current(rt: HostRuntime) -> Result<()> {
    let cases: &[(&[u8], &[u8], u8)] = &[
        (b"MANIFEST-000007\n", b"MANIFEST-000007\n", 0),
        (
            b"MANIFEST-000007",
            b"'MANIFEST-000007'\nCURRENT: Corruption: CURRENT is no manifest's name and a newline\n",
            1,
        ),
        (
            b"",
            b"''\nCURRENT: Corruption: CURRENT is no manifest's name and a newline\n",
            1,
        ),
    ];
    for (bytes, text, status) in cases {
        let mut env = with_file(rt.alloc(), "CURRENT", bytes)?;
        assert!(rt; prints(rt.alloc(), &mut env, &["dump", "CURRENT"], text, *status)?);
    }
    Ok(())
}

#[test]
fn files_that_are_not_printed(rt: HostRuntime) -> Result<()> {
    let mut env = MemEnv::new(rt.alloc());
    let cases: &[(&str, &[u8])] = &[
        (
            "LOCK",
            b"LOCK: not the name of a log, a manifest, a table or CURRENT\n",
        ),
        (
            "db/",
            b"db/: not the name of a log, a manifest, a table or CURRENT\n",
        ),
        (
            "a/000001.log",
            b"a/000001.log: offset 0: NotFound: no such file: a/000001.log\n",
        ),
        (
            "a/000001.ldb",
            b"a/000001.ldb: NotFound: no such file: a/000001.ldb\n",
        ),
    ];
    for (name, text) in cases {
        assert!(rt;
            prints(rt.alloc(), &mut env, &["dump", name], text, 1)?,
            "{name}"
        );
    }
    Ok(())
}

/// Files are printed one after another, those after a damaged one, too.
#[test]
fn several_files(rt: HostRuntime) -> Result<()> {
    let mut env = with_file(rt.alloc(), "000003.log", LOG)?;
    let words = ["dump", "000001.log", "000003.log"];
    let text =
        b"000001.log: offset 0: NotFound: no such file: 000001.log\n--- offset 0; sequence 9\n  put '' ''\n  del 'key01'\n  put 'it's' '\\xc3\\xa4\\x09'\n--- offset 39; sequence 12\n";
    assert!(rt; prints(rt.alloc(), &mut env, &words, text, 1)?);
    Ok(())
}

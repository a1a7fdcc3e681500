//! A table that C++ LevelDB 1.23 compressed (`tools/theirstores/make.cc snappy`), the text that its
//! own dump has for it, and what is printed without its compressor.
use super::files::{Printed, put, run, run_with, with_file};
use leveldb_base::crc::{crc32, mask_crc};
use leveldb_base::error::Result;
use leveldb_env::compressor::CompressorList;
use leveldb_env::mem_env::MemEnv;
use leveldb_snappy::Snappy;
use std::alloc::Global;
use std::process::Abort;

const MANIFEST: &[u8] =
    b"V\xf9\xb8\xf8\x1c\0\x01\x01\x1aleveldb.BytewiseComparatorW\xeb\x7f;!\0\x01\x02\x06\x09\0\
\x03\x07\x04\x02\x07\0\x05\xca\x01\x09a\x01\x01\0\0\0\0\0\0\x09b\x01\x02\0\0\0\0\0\0";

const TABLE: &[u8] =
    b"\xe8\x01\x18\0\x09da\x01\x01\0\x05\x01\0a\xfe\x01\0\x8a\x01\0\x14\0\x09db\x01\x02\x05o\x04\
\0b\xfe\x01\0\x8a\x01\0\x1c\0\0\0\0\x01\0\0\0\x01\xb4\xd5Q\x10\x180`\xc0\x80\x01\x03\0\x06\0\0\0\
\0\x09\0\0\0\x0b\0\x10c\xb7\xf6\0\x22\x02filter.leveldb.BuiltinBloomFilter24\x12\0\0\0\0\x01\0\0\
\0\0$\x5c\xed\xfe\0\x09\x02b\x01\x02\0\0\0\0\0\0\0/\0\0\0\0\x01\0\0\0\0\xc8.\x99\x8fK/\x7f\x16\0\
\0\0\0\0\0\0\0\0\0\0\0\0\0\0\0\0\0\0\0\0\0\0\0\0\0\0\0\0\0\0\0\0\0\0\0W\xfb\x80\x8b$uG\xdb";

/// How many bytes are stored for the table's one block, which is its first; its id is the next one.
const STORED: usize = 47;

const TABLE_TEXT: &[u8] = b"\
'a' @ 1 : val => 'aaaaaaaaaaaaaaaaaaaaaaaaaaaaaaaaaaaaaaaaaaaaaaaaaa\
aaaaaaaaaaaaaaaaaaaaaaaaaaaaaaaaaaaaaaaaaaaaaaaaaa'\n\
'b' @ 2 : val => 'bbbbbbbbbbbbbbbbbbbbbbbbbbbbbbbbbbbbbbbbbbbbbbbbbb\
bbbbbbbbbbbbbbbbbbbbbbbbbbbbbbbbbbbbbbbbbbbbbbbbbb'\n";

/// Their store of this table.
fn store(alloc: Global) -> Result<MemEnv> {
    let mut env = with_file(alloc, "db/000005.ldb", TABLE)?;
    put(alloc, &mut env, "db/000006.log", b"")?;
    put(alloc, &mut env, "db/MANIFEST-000004", MANIFEST)?;
    put(alloc, &mut env, "db/CURRENT", b"MANIFEST-000004\n")?;
    Ok(env)
}

/// What is printed with Snappy.
fn by_snappy(alloc: Global, env: &mut MemEnv, words: &[&str]) -> Result<Printed> {
    let mut list = CompressorList::default();
    list.set::<Snappy>(alloc, Box::new(alloc, Snappy)?)?;
    run_with(alloc, env, &list, words)
}

/// The table with a byte of its block's stored bytes, or their id, changed, under a right checksum.
fn changed(alloc: Global, at: usize, byte: u8) -> Result<Vec<u8>> {
    let mut bytes = TABLE.to_vec(alloc)?;
    bytes[at] = byte;
    let sum = mask_crc(crc32(&bytes[..STORED + 1])).to_le_bytes();
    bytes[STORED + 1..STORED + 5].copy_from_slice(&sum);
    Ok(bytes)
}

#[test]
fn a_compressed_table_is_dumped(rt: HostRuntime) -> Result<()> {
    let mut env = store(rt.alloc())?;
    let printed = by_snappy(rt.alloc(), &mut env, &["dump", "db/000005.ldb"])?;
    assert!(rt; printed.is(TABLE_TEXT, 0));
    let printed = by_snappy(rt.alloc(), &mut env, &["check", "db"])?;
    assert!(rt; printed.is(b"", 0));
    Ok(())
}

#[test]
fn without_its_compressor(rt: HostRuntime) -> Result<()> {
    let mut env = store(rt.alloc())?;
    let text =
        b"db/000005.ldb: a block is compressed by Snappy (id 1), which this program doesn't have\n";
    let printed = run(rt.alloc(), &mut env, &["dump", "db/000005.ldb"])?;
    assert!(rt; printed.is(text, 1));
    let printed = run(rt.alloc(), &mut env, &["check", "db"])?;
    assert!(rt; printed.is(text, 1));
    let printed = run(rt.alloc(), &mut env, &["dump", "--blocks", "db/000005.ldb"])?;
    assert!(rt; printed.out.ends_with(text) && printed.out.starts_with(b"metaindex at 75, "));
    Ok(())
}

#[test]
fn other_compressors(rt: HostRuntime) -> Result<()> {
    let cases: &[(u8, &[u8])] = &[
        (
            2,
            b"1.ldb: a block is compressed by Zstandard (id 2), which this program doesn't have\n",
        ),
        (
            7,
            b"1.ldb: a block is compressed by another compressor (id 7), which this program \
doesn't have\n",
        ),
    ];
    for (id, text) in cases {
        let bytes = changed(rt.alloc(), STORED, *id)?;
        let mut env = with_file(rt.alloc(), "1.ldb", &bytes)?;
        let printed = by_snappy(rt.alloc(), &mut env, &["dump", "1.ldb"])?;
        assert!(rt; printed.is(text, 1), "{id}");
    }
    Ok(())
}

/// A length of one byte more, and an offset past the front.
#[test]
fn bytes_that_snappy_refuses(rt: HostRuntime) -> Result<()> {
    for (at, byte) in [(0, 0xe9), (11, 8)] {
        let bytes = changed(rt.alloc(), at, byte)?;
        let mut env = with_file(rt.alloc(), "1.ldb", &bytes)?;
        let printed = by_snappy(rt.alloc(), &mut env, &["dump", "1.ldb"])?;
        assert!(rt;
            printed.is(b"1.ldb: Corruption: not in Snappy's format\n", 1),
            "{at}"
        );
    }
    Ok(())
}

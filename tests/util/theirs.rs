//! Files that C++ LevelDB 1.23 wrote (`tools/theirstores/make.cc dumped`), and the text that its
//! own dump has for each (`tools/theirstores/dump.cc`).
use super::files::{prints, put, with_file};
use leveldb_base::error::Result;
use leveldb_env::env::Env;
use leveldb_env::mem_env::MemEnv;
use std::alloc::Global;
use std::process::Abort;

pub const LOG: &[u8] =
    b"\xd1\xdd\x9eT \0\x01\x09\0\0\0\0\0\0\0\x03\0\0\0\x01\0\0\0\x05key01\x01\x04it's\x03\xc3\xa4\
\x090y\xe4\xd6\x0c\0\x01\x0c\0\0\0\0\0\0\0\0\0\0\0";

pub const LOG_TEXT: &[u8] = b"\
--- offset 0; sequence 9\n\
\x20\x20put '' ''\n\
\x20\x20del 'key01'\n\
\x20\x20put 'it's' '\\xc3\\xa4\\x09'\n\
--- offset 39; sequence 12\n";

pub const MANIFEST: &[u8] =
    b"V\xf9\xb8\xf8\x1c\0\x01\x01\x1aleveldb.BytewiseComparator\xa4\x9c\x8b\xbe\x08\0\x01\x02\x03\
\x09\0\x03\x04\x04\0\xd6|\xbc\xe8)\0\x01\x02\x04\x09\0\x03\x06\x04\x05\x07\x02\x05\xed\x01\
\x0dkey00\x01\x01\0\0\0\0\0\0\x0dkey04\x01\x05\0\0\0\0\0\0\xdf*E\x84)\0\x01\x02\x06\x09\0\
\x03\x08\x04\x08\x07\x01\x07\xdc\x01\x0d\0\x7f\xff~ \x01\x08\0\0\0\0\0\0\x0dkey03\0\x07\0\0\
\0\0\0\0\x04\x90\x17c?\0\x01\x02\x06\x09\0\x03\x09\x04\x08\x05\x01\x0dkey03\0\x07\0\0\0\0\0\
\0\x06\x01\x07\x06\x02\x05\x07\x02\x08\xf9\x01\x0d\0\x7f\xff~ \x01\x08\0\0\0\0\0\0\x0dkey04\
\x01\x05\0\0\0\0\0\0";

pub const MANIFEST_TEXT: &[u8] = b"\
--- offset 0; VersionEdit {\n\
\x20\x20Comparator: leveldb.BytewiseComparator\n\
}\n\
--- offset 35; VersionEdit {\n\
\x20\x20LogNumber: 3\n\
\x20\x20PrevLogNumber: 0\n\
\x20\x20NextFile: 4\n\
\x20\x20LastSeq: 0\n\
}\n\
--- offset 50; VersionEdit {\n\
\x20\x20LogNumber: 4\n\
\x20\x20PrevLogNumber: 0\n\
\x20\x20NextFile: 6\n\
\x20\x20LastSeq: 5\n\
\x20\x20AddFile: 2 5 237 'key00' @ 1 : 1 .. 'key04' @ 5 : 1\n\
}\n\
--- offset 98; VersionEdit {\n\
\x20\x20LogNumber: 6\n\
\x20\x20PrevLogNumber: 0\n\
\x20\x20NextFile: 8\n\
\x20\x20LastSeq: 8\n\
\x20\x20AddFile: 1 7 220 '\\x00\\x7f\\xff~ ' @ 8 : 1 .. 'key03' @ 7 : 0\n\
}\n\
--- offset 146; VersionEdit {\n\
\x20\x20LogNumber: 6\n\
\x20\x20PrevLogNumber: 0\n\
\x20\x20NextFile: 9\n\
\x20\x20LastSeq: 8\n\
\x20\x20CompactPointer: 1 'key03' @ 7 : 0\n\
\x20\x20RemoveFile: 1 7\n\
\x20\x20RemoveFile: 2 5\n\
\x20\x20AddFile: 2 8 249 '\\x00\\x7f\\xff~ ' @ 8 : 1 .. 'key04' @ 5 : 1\n\
}\n";

pub const TABLE: &[u8] =
    b"\0\x0d\x01\0\x7f\xff~ \x01\x08\0\0\0\0\0\0\n\0\x0d\0key00\x01\x01\0\0\0\0\0\0\x04\x09\x011\
\x01\x02\0\0\0\0\0\0v\x04\x09\x0c2\x01\x06\0\0\0\0\0\0it's \\ \"new\"\x04\x09\x044\x01\x05\0\
\0\0\0\0\0vvvv\0\0\0\0\x01\0\0\0\0\x97BJ\xd3\x0b\x88J\x88\x18\xc4-\"\x06\0\0\0\0\x09\0\0\0\
\x0b\0&\x0f\x97S\0\"\x02filter.leveldb.BuiltinBloomFilter2c\x12\0\0\0\0\x01\0\0\0\0\xca\xe4>\
;\0\x09\x02l\x01\xff\xff\xff\xff\xff\xff\xff\0^\0\0\0\0\x01\0\0\0\0\xab\xa5\xc69z/\xae\x01\
\x16\0\0\0\0\0\0\0\0\0\0\0\0\0\0\0\0\0\0\0\0\0\0\0\0\0\0\0\0\0\0\0\0\0\0\0W\xfb\x80\x8b$uG\
\xdb";

pub const TABLE_TEXT: &[u8] = b"\
'\\x00\\x7f\\xff~ ' @ 8 : val => '\\x0a'\n\
'key00' @ 1 : val => ''\n\
'key01' @ 2 : val => 'v'\n\
'key02' @ 6 : val => 'it's \\ \"new\"'\n\
'key04' @ 5 : val => 'vvvv'\n";

/// The store of these files.
pub fn their_store(alloc: Global) -> Result<MemEnv> {
    let mut env = with_file(alloc, "db/000006.log", LOG)?;
    put(alloc, &mut env, "db/MANIFEST-000002", MANIFEST)?;
    put(alloc, &mut env, "db/000008.ldb", TABLE)?;
    put(alloc, &mut env, "db/CURRENT", b"MANIFEST-000002\n")?;
    Ok(env)
}

#[test]
fn their_log(rt: HostRuntime) -> Result<()> {
    let mut env = their_store(rt.alloc())?;
    assert!(rt;
        prints(
            rt.alloc(),
            &mut env,
            &["dump", "db/000006.log"],
            LOG_TEXT,
            0
        )?
    );
    Ok(())
}

#[test]
fn their_manifest(rt: HostRuntime) -> Result<()> {
    let mut env = their_store(rt.alloc())?;
    assert!(rt;
        prints(
            rt.alloc(),
            &mut env,
            &["dump", "db/MANIFEST-000002"],
            MANIFEST_TEXT,
            0
        )?
    );
    Ok(())
}

#[test]
fn their_table(rt: HostRuntime) -> Result<()> {
    let mut env = their_store(rt.alloc())?;
    assert!(rt;
        prints(
            rt.alloc(),
            &mut env,
            &["dump", "db/000008.ldb"],
            TABLE_TEXT,
            0
        )?
    );
    Ok(())
}

/// Nothing is wrong with the store, and it stays as it is.
#[test]
fn their_store_is_whole(rt: HostRuntime) -> Result<()> {
    let mut env = their_store(rt.alloc())?;
    assert!(rt; prints(rt.alloc(), &mut env, &["check", "db"], b"", 0)?);
    assert!(rt; env.children(rt.alloc(), "db")?.len() == 4);
    Ok(())
}

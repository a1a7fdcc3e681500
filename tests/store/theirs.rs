//! Stores that C++ LevelDB 1.23 made (tools/theirstores/make.cc says how), which are opened and
//! read.
use super::stores::{DefaultOptions, STORE};
use leveldb_base::error::{Result, StatusCode};
use leveldb_env::env::Env;
use leveldb_env::mem_env::MemEnv;
use leveldb_env::options::Options;
use leveldb_snappy::Snappy;
use rusty_leveldb::{DB, repair};
use std::alloc::Global;
use std::process::Abort;
use support::{failed_with, file_bytes, put_file};

/// Two edits: a table in level 2, and one in level 0.
const MANIFEST: &[u8] =
    b"\x1be\x22[=\0\x01\x01\x1aleveldb.BytewiseComparator\x07\x02\x05\xe7\x04\x0dkey00\x01\x01\0\
\0\0\0\0\0\x0dkey19\x01\x14\0\0\0\0\0\0\x95\x98\xfe\xa8$\0\x01\x02\x08\x09\0\x03\x09\x04\x17\x07\
\0\x07\xd3\x01\x08\x01\x17\0\0\0\0\0\0\x0dkey05\x01\x16\0\0\0\0\0\0";

/// `key00` to `key19`, numbered from 1 on.
const DEEP_TABLE: &[u8] =
    b"\0\x0d\x09key00\x01\x01\0\0\0\0\0\0old key00\x04\x09\x091\x01\x02\0\0\0\0\0\0old key01\x04\
\x09\x092\x01\x03\0\0\0\0\0\0old key02\x04\x09\x093\x01\x04\0\0\0\0\0\0old key03\x04\x09\x094\
\x01\x05\0\0\0\0\0\0old key04\x04\x09\x095\x01\x06\0\0\0\0\0\0old key05\x04\x09\x096\x01\x07\0\0\
\0\0\0\0old key06\x04\x09\x097\x01\x08\0\0\0\0\0\0old key07\x04\x09\x098\x01\x09\0\0\0\0\0\0old \
key08\x04\x09\x099\x01\n\0\0\0\0\0\0old key09\x03\n\x0910\x01\x0b\0\0\0\0\0\0old key10\x04\x09\
\x091\x01\x0c\0\0\0\0\0\0old key11\x04\x09\x092\x01\x0d\0\0\0\0\0\0old key12\x04\x09\x093\x01\
\x0e\0\0\0\0\0\0old key13\x04\x09\x094\x01\x0f\0\0\0\0\0\0old key14\x04\x09\x095\x01\x10\0\0\0\0\
\0\0old key15\0\x0d\x09key16\x01\x11\0\0\0\0\0\0old key16\x04\x09\x097\x01\x12\0\0\0\0\0\0old ke\
y17\x04\x09\x098\x01\x13\0\0\0\0\0\0old key18\x04\x09\x099\x01\x14\0\0\0\0\0\0old key19\0\0\0\0U\
\x01\0\0\x02\0\0\0\0s8\xe2\x89\x18\xcc\xf8\xec\0\xb5\xcc\x95\xe8)\x10\xee\x98J)\x8b\x91(\xad\xcc\
3)\xc8Q\xb6\x06\0\0\0\0\x1a\0\0\0\x0b\0\xc3\xd2\xab\xf2\0\x22\x03filter.leveldb.BuiltinBloomFilt\
er2\xbe\x03#\0\0\0\0\x01\0\0\0\0Z\xb8\x1d\xa0\0\x09\x03l\x01\xff\xff\xff\xff\xff\xff\xff\0\xb9\
\x03\0\0\0\0\x01\0\0\0\0\xfb\x125!\xe6\x030\x9b\x04\x17\0\0\0\0\0\0\0\0\0\0\0\0\0\0\0\0\0\0\0\0\
\0\0\0\0\0\0\0\0\0\0\0\0\0\0W\xfb\x80\x8b$uG\xdb";

/// The empty key, a deletion of `key03`, and `key05`.
const TABLE: &[u8] =
    b"\0\x08\0\x01\x17\0\0\0\0\0\0\0\x0d\0key03\0\x15\0\0\0\0\0\0\x04\x09\x095\x01\x16\0\0\0\0\0\
\0new key05\0\0\0\0\x01\0\0\0\0Ps\xda\xa4\x88\x0c\x06\x88\x02@\xb9\x90\x06\0\0\0\0\x09\0\0\0\x0b\
\0\x04\xd98F\0\x22\x02filter.leveldb.BuiltinBloomFilter2=\x12\0\0\0\0\x01\0\0\0\0\xab\xf2\xf2\
\x1a\0\x09\x02l\x01\xff\xff\xff\xff\xff\xff\xff\08\0\0\0\0\x01\0\0\0\0p\x88\x0fDT/\x88\x01\x16\0\
\0\0\0\0\0\0\0\0\0\0\0\0\0\0\0\0\0\0\0\0\0\0\0\0\0\0\0\0\0\0\0\0\0\0W\xfb\x80\x8b$uG\xdb";

/// A batch of three changes, and one of one.
const LOG: &[u8] =
    b"\n.\xa6\xa1/\0\x01\x18\0\0\0\0\0\0\0\x03\0\0\0\x01\x05key07\x0cnewest key07\0\x05key05\x01\
\x02zz\x03\0\0\0\x1b\xbf\x1e\xbd\x1e\0\x01\x1b\0\0\0\0\0\0\0\x01\0\0\0\x01\x05key20\nin the log";

/// Two edits: the comparator, and a table in level 0.
const SNAPPY_MANIFEST: &[u8] =
    b"V\xf9\xb8\xf8\x1c\0\x01\x01\x1aleveldb.BytewiseComparatorW\xeb\x7f;!\0\x01\x02\x06\x09\0\
\x03\x07\x04\x02\x07\0\x05\xca\x01\x09a\x01\x01\0\0\0\0\0\0\x09b\x01\x02\0\0\0\0\0\0";

/// Two pairs in a block that Snappy compressed.
const SNAPPY_TABLE: &[u8] =
    b"\xe8\x01\x18\0\x09da\x01\x01\0\x05\x01\0a\xfe\x01\0\x8a\x01\0\x14\0\x09db\x01\x02\x05o\x04\
\0b\xfe\x01\0\x8a\x01\0\x1c\0\0\0\0\x01\0\0\0\x01\xb4\xd5Q\x10\x180`\xc0\x80\x01\x03\0\x06\0\0\0\
\0\x09\0\0\0\x0b\0\x10c\xb7\xf6\0\x22\x02filter.leveldb.BuiltinBloomFilter24\x12\0\0\0\0\x01\0\0\
\0\0$\x5c\xed\xfe\0\x09\x02b\x01\x02\0\0\0\0\0\0\0/\0\0\0\0\x01\0\0\0\0\xc8.\x99\x8fK/\x7f\x16\0\
\0\0\0\0\0\0\0\0\0\0\0\0\0\0\0\0\0\0\0\0\0\0\0\0\0\0\0\0\0\0\0\0\0\0\0W\xfb\x80\x8b$uG\xdb";

/// What the first store has: its keys with their values, in order.
const PAIRS: [(&[u8], &[u8]); 21] = [
    (b"", b""),
    (b"key00", b"old key00"),
    (b"key01", b"old key01"),
    (b"key02", b"old key02"),
    (b"key04", b"old key04"),
    (b"key06", b"old key06"),
    (b"key07", b"newest key07"),
    (b"key08", b"old key08"),
    (b"key09", b"old key09"),
    (b"key10", b"old key10"),
    (b"key11", b"old key11"),
    (b"key12", b"old key12"),
    (b"key13", b"old key13"),
    (b"key14", b"old key14"),
    (b"key15", b"old key15"),
    (b"key16", b"old key16"),
    (b"key17", b"old key17"),
    (b"key18", b"old key18"),
    (b"key19", b"old key19"),
    (b"key20", b"in the log"),
    (b"zz", b"\0\0\0"),
];

/// Keys that were deleted, or never there.
const MISSING: [&[u8]; 5] = [b"key03", b"key05", b"key", b"key21", b"zzz"];

fn plain_store(alloc: Global) -> Result<MemEnv> {
    let mut env = MemEnv::new(alloc);
    put_file(alloc, &mut env, "CURRENT", b"MANIFEST-000006\n")?;
    put_file(alloc, &mut env, "MANIFEST-000006", MANIFEST)?;
    put_file(alloc, &mut env, "000005.ldb", DEEP_TABLE)?;
    put_file(alloc, &mut env, "000007.ldb", TABLE)?;
    put_file(alloc, &mut env, "000008.log", LOG)?;
    put_file(alloc, &mut env, "LOCK", b"")?;
    Ok(env)
}

/// Whether each key is found, and no other.
fn finds_all<E: Env>(alloc: Global, env: &mut E, options: DefaultOptions) -> Result<bool> {
    let mut db = DB::open(alloc, STORE, env, options)?;
    let mut is_right = true;
    for (key, value) in &PAIRS {
        is_right &= db.get(key)?.is_some_and(|found| found.as_slice() == *value);
    }
    for key in &MISSING {
        is_right &= db.get(key)?.is_none();
    }
    db.close()?;
    Ok(is_right)
}

/// Whether an iterator is at each pair in turn, and then at none.
fn walks_over_all<E: Env>(alloc: Global, env: &mut E) -> Result<bool> {
    let mut db = DB::open(alloc, STORE, env, Options::default())?;
    let mut it = db.new_iter()?;
    let mut is_right = true;
    for (key, value) in &PAIRS {
        it.advance()?;
        is_right &= it.current() == Some((*key, *value));
    }
    it.advance()?;
    is_right &= it.current().is_none();
    drop(it);
    db.close()?;
    Ok(is_right)
}

/// Puts a pair, and takes it away in the next opening.
fn write_on<E: Env>(alloc: Global, env: &mut E) -> Result<bool> {
    let mut db = DB::open(alloc, STORE, env, Options::default())?;
    db.put(b"key03", b"ours")?;
    db.close()?;
    db.abandon()?;
    let mut db = DB::open(alloc, STORE, env, Options::default())?;
    let is_found = db
        .get(b"key03")?
        .is_some_and(|found| found.as_slice() == b"ours".as_slice());
    db.delete(b"key03")?;
    db.close()?;
    Ok(is_found)
}

/// What is read, written and read again; the logs are used on, or become tables.
fn use_store(rt: &impl Abort, alloc: Global, reuses: bool) -> Result<()> {
    let mut env = plain_store(alloc)?;
    let mut options = Options::default();
    options.reuse_logs = reuses;
    options.reuse_manifest = reuses;
    assert!(rt; finds_all(alloc, &mut env, options)?);
    assert!(rt; walks_over_all(alloc, &mut env)?);
    assert!(rt; write_on(alloc, &mut env)?);
    assert!(rt; walks_over_all(alloc, &mut env)?);
    assert!(rt; finds_all(alloc, &mut env, Options::default())?);
    Ok(())
}

#[test]
fn a_store_without_compression_is_read_and_written(rt: HostRuntime) -> Result<()> {
    use_store(&rt, rt.alloc(), true)?;
    use_store(&rt, rt.alloc(), false)
}

/// A store whose one table has a compressed block.
fn compressed_store(alloc: Global) -> Result<MemEnv> {
    let mut env = MemEnv::new(alloc);
    put_file(alloc, &mut env, "CURRENT", b"MANIFEST-000004\n")?;
    put_file(alloc, &mut env, "MANIFEST-000004", SNAPPY_MANIFEST)?;
    put_file(alloc, &mut env, "000005.ldb", SNAPPY_TABLE)?;
    put_file(alloc, &mut env, "000006.log", b"")?;
    Ok(env)
}

/// A block that Snappy compressed is refused where it is read, and its table stays.
#[test]
fn a_compressed_block_is_refused(rt: HostRuntime) -> Result<()> {
    let alloc = rt.alloc();
    let mut env = compressed_store(alloc)?;
    let mut db = DB::open(alloc, STORE, &mut env, Options::default())?;
    assert!(rt; failed_with(db.get(b"a"), StatusCode::NotSupported)?);
    assert!(rt; db.get(b"c")?.is_none());
    db.close()?;
    db.abandon()?;
    assert!(rt; file_bytes(alloc, &mut env, "000005.ldb")?.as_slice() == SNAPPY_TABLE);
    Ok(())
}

/// Options that read blocks of Snappy, and compress new ones so.
fn with_snappy(alloc: Global) -> Result<DefaultOptions> {
    let mut options = Options::default();
    let list = &mut options.compressor_list;
    list.set::<Snappy>(alloc, Box::new(alloc, Snappy)?)?;
    options.compressor = 1;
    Ok(options)
}

/// Whether three letters have their values, a hundred times each of them.
fn has_letters<E: Env>(alloc: Global, env: &mut E) -> Result<bool> {
    let mut db = DB::open(alloc, STORE, env, with_snappy(alloc)?)?;
    let mut is_right = true;
    for letter in b'a'..=b'c' {
        let found = db.get(&[letter])?;
        is_right &= found.is_some_and(|found| found.as_slice() == [letter; 100].as_slice());
    }
    db.close()?;
    db.abandon()?;
    Ok(is_right)
}

/// With Snappy a compressed store is read, written and compacted, and repaired without its
/// manifest; the table that is made is compressed, too.
#[test]
fn a_compressed_store_is_used_with_snappy(rt: HostRuntime) -> Result<()> {
    let alloc = rt.alloc();
    let mut env = compressed_store(alloc)?;
    let mut db = DB::open(alloc, STORE, &mut env, with_snappy(alloc)?)?;
    db.put(b"c", &[b'c'; 100])?;
    db.compact_range(b"", b"")?;
    db.close()?;
    db.abandon()?;
    assert!(rt; !env.exists("db/000005.ldb")?);
    assert!(rt; has_letters(alloc, &mut env)?);
    for name in &env.children(alloc, STORE)? {
        if name.starts_with("MANIFEST-") || name.as_str() == "CURRENT" {
            env.delete(&format!(in alloc; "{STORE}/{name}")?)?;
        }
    }
    repair(alloc, STORE, &mut env, with_snappy(alloc)?)?;
    assert!(rt; has_letters(alloc, &mut env)?);
    let mut db = DB::open(alloc, STORE, &mut env, Options::default())?;
    assert!(rt; failed_with(db.get(b"a"), StatusCode::NotSupported)?);
    Ok(())
}

/// Without its manifest the store isn't opened, and a repair finds all of it.
#[test]
fn a_store_without_its_manifest_is_repaired(rt: HostRuntime) -> Result<()> {
    let alloc = rt.alloc();
    let mut env = plain_store(alloc)?;
    env.delete("db/CURRENT")?;
    env.delete("db/MANIFEST-000006")?;
    let opened = DB::open(alloc, STORE, &mut env, Options::default());
    assert!(rt; failed_with(opened, StatusCode::Corruption)?);
    repair(alloc, STORE, &mut env, Options::default())?;
    assert!(rt; file_bytes(alloc, &mut env, "000005.ldb")?.as_slice() == DEEP_TABLE);
    assert!(rt; finds_all(alloc, &mut env, Options::default())?);
    assert!(rt; walks_over_all(alloc, &mut env)?);
    assert!(rt; write_on(alloc, &mut env)?);
    repair(alloc, STORE, &mut env, Options::default())?;
    assert!(rt; finds_all(alloc, &mut env, Options::default())?);
    Ok(())
}

/// A table with a block that Snappy compressed isn't left out: the repair is refused, and nothing
/// changes.
#[test]
fn a_compressed_store_is_not_repaired(rt: HostRuntime) -> Result<()> {
    let alloc = rt.alloc();
    let mut env = MemEnv::new(alloc);
    put_file(alloc, &mut env, "000005.ldb", SNAPPY_TABLE)?;
    put_file(alloc, &mut env, "000008.log", LOG)?;
    let repaired = repair(alloc, STORE, &mut env, Options::default());
    assert!(rt; failed_with(repaired, StatusCode::NotSupported)?);
    assert!(rt; env.children(alloc, STORE)?.len() == 3);
    assert!(rt; file_bytes(alloc, &mut env, "000005.ldb")?.as_slice() == SNAPPY_TABLE);
    assert!(rt; file_bytes(alloc, &mut env, "000008.log")?.as_slice() == LOG);
    Ok(())
}

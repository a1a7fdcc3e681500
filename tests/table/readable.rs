//! Files that are judged to be readable tables or not, each as a plain reader of whole files judges
//! it.
use super::checks::{Given, internal_table};
use leveldb_base::blockhandle::BlockHandle;
use leveldb_base::cmp::DefaultCmp;
use leveldb_base::crc::{digest, mask_crc};
use leveldb_base::error::{Result, StatusCode};
use leveldb_base::key_types::{ValueType, tag_bytes};
use leveldb_disks::mem_env::{MemEnv, RecordEnv};
use leveldb_env::compressor::CompressorList;
use leveldb_env::env::Env;
use leveldb_env::filter::{BloomPolicy, FilterPolicy, NoFilterPolicy};
use leveldb_env::options::Options;
use leveldb_table::readable::is_readable_table;
use leveldb_table::table_builder::{Footer, TableBuilder};
use slow_store::table_pairs;
use std::alloc::Global;
use std::process::Abort;
use support::{OnlyReads, Raised, Random, Refusing, ShortReads, change_byte, failed_with};

const PATH: &str = "store/000007.ldb";

/// A file of these bytes, alone.
fn env_of(alloc: Global, bytes: &[u8]) -> Result<MemEnv> {
    let mut env = MemEnv::new(alloc);
    put_file(&mut env, bytes)?;
    Ok(env)
}

fn put_file<E: Env>(env: &mut E, bytes: &[u8]) -> Result<()> {
    let mut file = env.open_writable_file(PATH)?;
    env.append(&mut file, bytes)
}

/// How a file is judged by these compressors.
fn judged_in<E: Env>(alloc: Global, env: &mut E, compressors: &CompressorList) -> Result<bool> {
    is_readable_table(alloc, env, PATH, DefaultCmp, compressors)
}

/// How these bytes are judged by the compressor that stores blocks as they are.
fn judged(alloc: Global, bytes: &[u8]) -> Result<bool> {
    let compressors = CompressorList::default();
    judged_in(alloc, &mut env_of(alloc, bytes)?, &compressors)
}

/// Whether a key has a type that there is and a sequence number from 1 on.
fn is_numbered(key: &[u8]) -> bool {
    let tag = key.get(key.len().saturating_sub(8)..).unwrap_or_default();
    match tag {
        [kind, number @ ..] => *kind < 2 && number.iter().any(|byte| *byte > 0),
        [] => false,
    }
}

/// How a plain reader of whole files judges these bytes. It knows only blocks that are stored as
/// they are.
fn judged_plainly(alloc: Global, bytes: &[u8]) -> Result<bool> {
    let Some(pairs) = table_pairs(alloc, &DefaultCmp, bytes)? else {
        return Ok(false);
    };
    Ok(pairs.iter().all(|pair| is_numbered(pair.0.as_slice())))
}

/// Whether both judge these bytes so.
fn both(alloc: Global, bytes: &[u8], readable: bool) -> Result<bool> {
    Ok(judged(alloc, bytes)? == readable && judged_plainly(alloc, bytes)? == readable)
}

/// Whether both judge these bytes alike.
fn alike(alloc: Global, bytes: &[u8]) -> Result<bool> {
    Ok(judged(alloc, bytes)? == judged_plainly(alloc, bytes)?)
}

// ---- tables of the builder

/// An internal key.
fn key_of(alloc: Global, user: &[u8], sequence: u64, kind: ValueType) -> Result<Vec<u8>> {
    let mut key = Vec::from_slice(alloc, user)?;
    key.extend_from_slice(&tag_bytes(sequence, kind))?;
    Ok(key)
}

/// A table of keys of two versions each, one of which is a deletion here and there.
fn built<FP: FilterPolicy + Copy + Drop>(
    alloc: Global,
    options: &Options<DefaultCmp, FP>,
    count: u8,
) -> Result<Vec<u8>> {
    let compressors = &options.compressor_list;
    let mut builder = TableBuilder::new(alloc, options, Vec::new(alloc));
    for number in 0..count {
        let user = [b'k', number / 7, number];
        let kind = if number % 3 == 0 {
            ValueType::TypeDeletion
        } else {
            ValueType::TypeValue
        };
        let newer = key_of(alloc, &user, u64::from(number) + 2, kind)?;
        builder.add(compressors, newer.as_slice(), b"new")?;
        let older = key_of(alloc, &user, 1, ValueType::TypeValue)?;
        builder.add(compressors, older.as_slice(), b"a longer value")?;
    }
    let (bytes, size) = builder.finish(compressors);
    size?;
    Ok(bytes)
}

/// Options whose blocks have about so many bytes, with filters or none.
fn small_blocks<FP>(policy: FP, block_size: usize) -> Options<DefaultCmp, FP> {
    let mut options = super::checks::options_under(DefaultCmp, policy);
    options.block_size = block_size;
    options
}

/// Tables of one block and of many, with filters and without, are readable.
#[test]
fn built_tables(rt: HostRuntime) -> Result<()> {
    for size in [1, 60, 200, 4096] {
        let filtered = built(rt.alloc(), &small_blocks(BloomPolicy::new(10), size), 20)?;
        assert!(rt;
            both(rt.alloc(), &filtered, true)?,
            "filters, blocks of {size}"
        );
        let plain = built(rt.alloc(), &small_blocks(NoFilterPolicy::new(), size), 20)?;
        assert!(rt;
            both(rt.alloc(), &plain, true)?,
            "no filters, blocks of {size}"
        );
    }
    Ok(())
}

/// Every cut, and every byte raised by one, of a table of several blocks: what is in the filters
/// alone isn't looked at, and all else is.
#[test]
fn each_byte(rt: HostRuntime) -> Result<()> {
    let mut bytes = built(rt.alloc(), &small_blocks(BloomPolicy::new(10), 60), 4)?;
    let mut readable = 0;
    for at in 0..bytes.len() {
        let cut = bytes.get(..at).unwrap_or_default();
        assert!(rt; both(rt.alloc(), cut, false)?, "{at} bytes");
        change_byte(&mut bytes, at, 1);
        assert!(rt; alike(rt.alloc(), &bytes)?, "byte {at}");
        readable += usize::from(judged(rt.alloc(), &bytes)?);
        change_byte(&mut bytes, at, 255);
    }
    assert!(rt;
        readable > 0 && readable < 80,
        "{readable} bytes may be any"
    );
    Ok(())
}

// ---- tables put together by hand

/// A key of the row: its user's part, its sequence number and the number of its type.
type Key<'a> = (&'a [u8], u64, u64);

/// A line of the index: its key, and the keys of its block.
type Line<'a> = (Key<'a>, &'a [Key<'a>]);

/// The bytes of a key.
fn key_bytes(alloc: Global, key: Key<'_>) -> Result<Vec<u8>> {
    let mut bytes = Vec::from_slice(alloc, key.0)?;
    bytes.extend_from_slice(&(key.1 * 256 + key.2).to_le_bytes())?;
    Ok(bytes)
}

/// A block in which each entry is a restart point, and nothing is checked.
#[derive(Drop)]
struct Entries {
    bytes: Vec<u8>,
    points: Vec<u8>,
}

impl Entries {
    fn new(alloc: Global) -> Entries {
        Entries {
            bytes: Vec::new(alloc),
            points: Vec::new(alloc),
        }
    }

    fn add(&mut self, key: &[u8], value: &[u8]) -> Result<()> {
        self.points
            .extend_from_slice(&(self.bytes.len() as u32).to_le_bytes())?;
        self.bytes
            .extend_from_slice(&[0, key.len() as u8, value.len() as u8])?;
        self.bytes.extend_from_slice(key)?;
        self.bytes.extend_from_slice(value)?;
        Ok(())
    }

    fn finish(self) -> Result<Vec<u8>> {
        let Entries {
            mut bytes,
            mut points,
        } = self;
        if points.is_empty() {
            points.extend_from_slice(&[0; 4])?;
        }
        bytes.extend_from_slice(points.as_slice())?;
        bytes.extend_from_slice(&(points.len() as u32 / 4).to_le_bytes())?;
        Ok(bytes)
    }
}

/// Puts a block under an id, with its checksum, and returns its handle.
fn put_block(file: &mut Vec<u8>, stored: &[u8], id: u8) -> Result<BlockHandle> {
    let handle = BlockHandle::new(file.len(), stored.len());
    let mut digest = digest();
    digest.update(stored);
    digest.update(&[id]);
    file.extend_from_slice(stored)?;
    file.push(id)?;
    file.extend_from_slice(&mask_crc(digest.finalize()).to_le_bytes())?;
    Ok(handle)
}

/// The bytes of a handle.
fn handle_bytes(alloc: Global, handle: BlockHandle) -> Result<Vec<u8>> {
    let mut bytes = [0; 20];
    let used = handle.encode_to(&mut bytes);
    Vec::from_slice(alloc, bytes.get(..used).unwrap_or_default()).map_err(|error| error.into())
}

/// Puts the data blocks of these lines, and returns the index.
fn put_lines(alloc: Global, file: &mut Vec<u8>, lines: &[Line<'_>]) -> Result<Vec<u8>> {
    let mut index = Entries::new(alloc);
    for (line, keys) in lines {
        let mut block = Entries::new(alloc);
        for key in *keys {
            block.add(key_bytes(alloc, *key)?.as_slice(), b"value")?;
        }
        let handle = put_block(file, block.finish()?.as_slice(), 0)?;
        index.add(
            key_bytes(alloc, *line)?.as_slice(),
            handle_bytes(alloc, handle)?.as_slice(),
        )?;
    }
    index.finish()
}

/// A metaindex of these pairs.
fn metaindex(alloc: Global, pairs: &[Given<'_>]) -> Result<Vec<u8>> {
    let mut block = Entries::new(alloc);
    for (key, value) in pairs {
        block.add(key, value)?;
    }
    block.finish()
}

/// Puts the metaindex, the index and the footer after data blocks.
fn put_end(file: &mut Vec<u8>, metas: &[u8], index: &[u8]) -> Result<()> {
    let meta = put_block(file, metas, 0)?;
    let index = put_block(file, index, 0)?;
    put_footer(file, meta, index)
}

fn put_footer(file: &mut Vec<u8>, meta: BlockHandle, index: BlockHandle) -> Result<()> {
    let mut footer = [0; 48];
    Footer::new(meta, index).encode(&mut footer);
    file.extend_from_slice(&footer)?;
    Ok(())
}

/// A table of these lines, whose metaindex has these pairs.
fn table_with(alloc: Global, lines: &[Line<'_>], metas: &[Given<'_>]) -> Result<Vec<u8>> {
    let mut file = Vec::from_slice(alloc, b"what no handle names")?;
    let index = put_lines(alloc, &mut file, lines)?;
    put_end(
        &mut file,
        metaindex(alloc, metas)?.as_slice(),
        index.as_slice(),
    )?;
    Ok(file)
}

/// Lines whose blocks may be a table's.
const GOOD: [&[Line<'static>]; 5] = [
    &[],
    &[((b"a", 1, 1), &[(b"a", 1, 1)])],
    &[
        ((b"b", 1, 1), &[(b"a", 9, 0), (b"a", 1, 1)]),
        ((b"c", 1, 1), &[(b"c", 5, 1)]),
    ],
    // a user's key in two blocks, and a line after all keys of its own
    &[
        ((b"a", 5, 1), &[(b"a", 9, 0), (b"a", 5, 1)]),
        ((b"z", 1, 1), &[(b"a", 4, 1), (b"b", 2, 0)]),
    ],
    // the greatest number, and an empty user's key; the type of a line isn't looked at
    &[((b"", 1, 77), &[(b"", (1 << 56) - 1, 1)])],
];

/// Lines whose blocks are no table's.
const BAD: [&[Line<'static>]; 16] = [
    // a block without entries
    &[((b"a", 1, 1), &[])],
    // a key after its own line
    &[((b"a", 1, 1), &[(b"b", 1, 1)])],
    &[((b"a", 2, 1), &[(b"a", 3, 1), (b"a", 1, 1)])],
    // keys out of order, and equal ones, in a block
    &[((b"c", 1, 1), &[(b"b", 1, 1), (b"a", 1, 1)])],
    &[((b"c", 1, 1), &[(b"a", 1, 1), (b"a", 2, 1)])],
    &[((b"c", 1, 1), &[(b"a", 1, 1), (b"a", 1, 0)])],
    // and from block to block
    &[
        ((b"b", 1, 1), &[(b"b", 1, 1)]),
        ((b"c", 1, 1), &[(b"a", 1, 1)]),
    ],
    &[
        ((b"b", 1, 1), &[(b"b", 1, 1)]),
        ((b"c", 1, 1), &[(b"b", 1, 1)]),
    ],
    // a line that isn't before the next block's keys, or is after the next line
    &[
        ((b"b", 1, 1), &[(b"a", 1, 1)]),
        ((b"c", 1, 1), &[(b"b", 1, 1)]),
    ],
    &[
        ((b"x", 1, 1), &[(b"a", 1, 1)]),
        ((b"c", 1, 1), &[(b"b", 1, 1)]),
    ],
    &[
        ((b"b", 1, 1), &[(b"a", 1, 1)]),
        ((b"b", 1, 1), &[(b"b", 1, 1)]),
    ],
    // types that there aren't, and the number 0
    &[((b"a", 1, 1), &[(b"a", 1, 2)])],
    &[((b"a", 1, 1), &[(b"a", 1, 255)])],
    &[((b"a", 0, 1), &[(b"a", 0, 1)])],
    &[((b"b", 1, 1), &[(b"a", 1, 1), (b"b", 1, 3)])],
    &[((b"b", 0, 1), &[(b"a", 0, 0), (b"b", 1, 1)])],
];

/// Tables that were put together by hand.
#[test]
fn by_hand(rt: HostRuntime) -> Result<()> {
    for (row, lines) in GOOD.iter().enumerate() {
        let bytes = table_with(rt.alloc(), lines, &[])?;
        assert!(rt; both(rt.alloc(), &bytes, true)?, "good row {row}");
    }
    for (row, lines) in BAD.iter().enumerate() {
        let bytes = table_with(rt.alloc(), lines, &[])?;
        assert!(rt; both(rt.alloc(), &bytes, false)?, "bad row {row}");
    }
    Ok(())
}

/// A metaindex has to be a block in byte order; what it says of filters isn't looked at.
#[test]
fn metaindexes(rt: HostRuntime) -> Result<()> {
    let lines = GOOD[2];
    let rows: [(&[Given<'_>], bool); 4] = [
        (
            &[(b"filter.leveldb.BuiltinBloomFilter2", b"no handle")],
            true,
        ),
        (&[(b"a", b""), (b"a\0", b"")], true),
        (&[(b"b", b""), (b"a", b"")], false),
        (&[(b"a", b""), (b"a", b"")], false),
    ];
    for (row, (metas, readable)) in rows.iter().enumerate() {
        let bytes = table_with(rt.alloc(), lines, metas)?;
        assert!(rt; both(rt.alloc(), &bytes, *readable)?, "row {row}");
    }
    Ok(())
}

/// Keys of fewer than eight bytes, in a block and in the index.
#[test]
fn short_keys(rt: HostRuntime) -> Result<()> {
    let whole = key_bytes(rt.alloc(), (b"a", 1, 1))?;
    for (key, line) in [(7, 9), (9, 7), (0, 9), (9, 0)] {
        let mut file = Vec::new(rt.alloc());
        let mut block = Entries::new(rt.alloc());
        block.add(whole.as_slice().get(..key).unwrap_or_default(), b"value")?;
        let handle = put_block(&mut file, block.finish()?.as_slice(), 0)?;
        let mut index = Entries::new(rt.alloc());
        let named = handle_bytes(rt.alloc(), handle)?;
        index.add(
            whole.as_slice().get(..line).unwrap_or_default(),
            named.as_slice(),
        )?;
        put_end(
            &mut file,
            metaindex(rt.alloc(), &[])?.as_slice(),
            index.finish()?.as_slice(),
        )?;
        assert!(rt;
            both(rt.alloc(), &file, false)?,
            "keys of {key} and {line} bytes"
        );
    }
    Ok(())
}

/// A table of one block, the handle of which is followed by these bytes in its line.
fn with_handle(alloc: Global, after: &[u8], past: usize) -> Result<Vec<u8>> {
    let mut file = Vec::new(alloc);
    let key = key_bytes(alloc, (b"a", 1, 1))?;
    let mut block = Entries::new(alloc);
    block.add(key.as_slice(), b"value")?;
    let handle = put_block(&mut file, block.finish()?.as_slice(), 0)?;
    let moved = BlockHandle::new(handle.offset().wrapping_add(past), handle.size());
    let mut named = handle_bytes(alloc, moved)?;
    named.extend_from_slice(after)?;
    let mut index = Entries::new(alloc);
    index.add(key.as_slice(), named.as_slice())?;
    put_end(
        &mut file,
        metaindex(alloc, &[])?.as_slice(),
        index.finish()?.as_slice(),
    )?;
    Ok(file)
}

/// A line's value is one handle and nothing else, of bytes that the file has.
#[test]
fn handles(rt: HostRuntime) -> Result<()> {
    assert!(rt; both(rt.alloc(), &with_handle(rt.alloc(), b"", 0)?, true)?);
    assert!(rt; both(rt.alloc(), &with_handle(rt.alloc(), b"\0", 0)?, false)?);
    for past in [1, 100, 1 << 40, usize::MAX - 3, usize::MAX] {
        let bytes = with_handle(rt.alloc(), b"", past)?;
        assert!(rt; both(rt.alloc(), &bytes, false)?, "{past} bytes further on");
    }
    Ok(())
}

/// The order of the blocks in the file is free, but two lines can't name the same block.
#[test]
fn order_in_the_file(rt: HostRuntime) -> Result<()> {
    let lines = [
        ((b"b".as_slice(), 1, 1), [(b"b".as_slice(), 1, 1)]),
        ((b"a", 1, 1), [(b"a", 1, 1)]),
    ];
    let mut file = Vec::new(rt.alloc());
    let mut index = Entries::new(rt.alloc());
    let mut handles = Vec::new(rt.alloc());
    for (_, keys) in &lines {
        let mut block = Entries::new(rt.alloc());
        block.add(key_bytes(rt.alloc(), keys[0])?.as_slice(), b"value")?;
        handles.push(put_block(&mut file, block.finish()?.as_slice(), 0)?)?;
    }
    let mut twice = file.clone()?;
    for number in [1, 0] {
        let key = key_bytes(rt.alloc(), lines[number].0)?;
        let handle = handle_bytes(rt.alloc(), handles[number])?;
        index.add(key.as_slice(), handle.as_slice())?;
    }
    put_end(
        &mut file,
        metaindex(rt.alloc(), &[])?.as_slice(),
        index.finish()?.as_slice(),
    )?;
    assert!(rt; both(rt.alloc(), &file, true)?);
    let mut index = Entries::new(rt.alloc());
    let handle = handle_bytes(rt.alloc(), handles[1])?;
    for user in [b"a", b"b"] {
        let key = key_bytes(rt.alloc(), (user, 1, 1))?;
        index.add(key.as_slice(), handle.as_slice())?;
    }
    put_end(
        &mut twice,
        metaindex(rt.alloc(), &[])?.as_slice(),
        index.finish()?.as_slice(),
    )?;
    assert!(rt; both(rt.alloc(), &twice, false)?);
    Ok(())
}

// ---- compressors

/// A table whose data block, metaindex and index are stored under these ids, as they are.
fn under_ids(alloc: Global, ids: [u8; 3]) -> Result<Vec<u8>> {
    let mut file = Vec::new(alloc);
    let key = key_bytes(alloc, (b"a", 1, 1))?;
    let mut block = Entries::new(alloc);
    block.add(key.as_slice(), b"value")?;
    let handle = put_block(&mut file, block.finish()?.as_slice(), ids[0])?;
    let mut index = Entries::new(alloc);
    index.add(key.as_slice(), handle_bytes(alloc, handle)?.as_slice())?;
    let meta = put_block(&mut file, metaindex(alloc, &[])?.as_slice(), ids[1])?;
    let index = put_block(&mut file, index.finish()?.as_slice(), ids[2])?;
    put_footer(&mut file, meta, index)?;
    Ok(file)
}

/// An id without a compressor, and one whose compressor fails, in each block: errors with codes of
/// their own. A block with a wrong checksum under such an id is damage.
#[test]
fn blocks_that_are_not_decoded(rt: HostRuntime) -> Result<()> {
    let mut refusing = CompressorList::default();
    refusing.set_with_id(rt.alloc(), 9, Box::new(rt.alloc(), Refusing)?)?;
    for ids in [[9, 0, 0], [0, 9, 0], [0, 0, 9]] {
        let mut bytes = under_ids(rt.alloc(), ids)?;
        assert!(rt; failed_with(judged(rt.alloc(), &bytes), StatusCode::NotSupported)?);
        let mut env = env_of(rt.alloc(), &bytes)?;
        let answer = judged_in(rt.alloc(), &mut env, &refusing);
        assert!(rt; failed_with(answer, StatusCode::CompressionError)?);
        for at in 0..bytes.len() {
            change_byte(&mut bytes, at, 1);
            match judged(rt.alloc(), &bytes) {
                Err(status) if status.code != StatusCode::NotSupported => return Err(status),
                answer => assert!(rt; !answer.unwrap_or(false), "byte {at}"),
            }
            change_byte(&mut bytes, at, 255);
        }
    }
    Ok(())
}

/// The table of a compressor is readable with it, and can't be judged without.
#[test]
fn by_a_compressor(rt: HostRuntime) -> Result<()> {
    let mut options = small_blocks(BloomPolicy::new(10), 60);
    options.compressor = 7;
    options
        .compressor_list
        .set_with_id(rt.alloc(), 7, Box::new(rt.alloc(), Raised)?)?;
    let bytes = built(rt.alloc(), &options, 9)?;
    let mut env = env_of(rt.alloc(), &bytes)?;
    assert!(rt; judged_in(rt.alloc(), &mut env, &options.compressor_list)?);
    assert!(rt; failed_with(judged(rt.alloc(), &bytes), StatusCode::NotSupported)?);
    Ok(())
}

// ---- the device

/// A missing file is no damage that is passed over.
#[test]
fn a_missing_file(rt: HostRuntime) -> Result<()> {
    let mut env = MemEnv::new(rt.alloc());
    let answer = judged_in(rt.alloc(), &mut env, &CompressorList::default());
    assert!(rt; failed_with(answer, StatusCode::Corruption)?);
    Ok(())
}

/// Each call of the device that fails is an error, of a table and of damaged bytes alike.
#[test]
fn failed_calls(rt: HostRuntime) -> Result<()> {
    let good = built(rt.alloc(), &small_blocks(BloomPolicy::new(10), 60), 4)?;
    let bad = table_with(rt.alloc(), BAD[6], &[])?;
    for (bytes, readable) in [(&good, true), (&bad, false)] {
        let mut calls = 0;
        for nth in 1..100 {
            let mut env = RecordEnv::new(rt.alloc());
            put_file(&mut env, bytes)?;
            env.fail(nth, false);
            match judged_in(rt.alloc(), &mut env, &CompressorList::default()) {
                Ok(answer) => {
                    assert!(rt; answer == readable);
                    break;
                }
                Err(status) => {
                    assert!(rt; status.code != StatusCode::Corruption, "call {nth}");
                    calls += 1;
                }
            }
        }
        assert!(rt; calls > 5 && calls < 99, "{calls} calls");
    }
    Ok(())
}

/// Reads of one to nine bytes change no judgement, and no call changes a file.
#[test]
fn short_reads(rt: HostRuntime) -> Result<()> {
    let good = built(rt.alloc(), &small_blocks(BloomPolicy::new(10), 60), 4)?;
    let bad = table_with(rt.alloc(), BAD[14], &[])?;
    for (bytes, readable) in [(&good, true), (&bad, false)] {
        let compressors = CompressorList::default();
        let mut env = ShortReads::new(env_of(rt.alloc(), bytes)?);
        assert!(rt; judged_in(rt.alloc(), &mut env, &compressors)? == readable);
        for most in 1..10 {
            let mut env = ShortReads::at_most(most, env_of(rt.alloc(), bytes)?);
            assert!(rt;
                judged_in(rt.alloc(), &mut env, &compressors)? == readable,
                "{most} bytes"
            );
        }
        let mut env = OnlyReads::of(env_of(rt.alloc(), bytes)?);
        assert!(rt; judged_in(rt.alloc(), &mut env, &compressors)? == readable);
        assert!(rt; env.rule.refused == 0);
    }
    Ok(())
}

// ---- damage at random

/// Sums each block of the file anew whose handle is here, so that damage inside is found by nothing
/// else.
fn sum_anew(bytes: &mut [u8], handle: (usize, usize)) {
    let (offset, size) = handle;
    let mut digest = digest();
    digest.update(bytes.get(offset..offset + size + 1).unwrap_or_default());
    let sum = mask_crc(digest.finalize()).to_le_bytes();
    for (number, byte) in sum.iter().enumerate() {
        if let Some(place) = bytes.get_mut(offset + size + 1 + number) {
            *place = *byte;
        }
    }
}

/// Blocks of which a byte or two are changed, under a right checksum.
#[test]
fn damage_under_right_sums(rt: HostRuntime) -> Result<()> {
    let mut random = Random(7);
    let (mut readable, mut all) = (0, 0);
    for lines in [GOOD[2], GOOD[3]] {
        let bytes = table_with(rt.alloc(), lines, &[(b"filter.x", b"12"), (b"y", b"")])?;
        let handles = handles_in(rt.alloc(), &bytes)?;
        for _ in 0..700 {
            let mut damaged = bytes.clone()?;
            let handle = handles[random.below(handles.len() as u64) as usize];
            for _ in 0..1 + random.below(2) {
                let at = handle.0 + random.below(handle.1 as u64) as usize;
                let amount = if random.below(2) == 0 {
                    1
                } else {
                    random.below(256) as u8
                };
                change_byte(&mut damaged, at, amount);
            }
            sum_anew(&mut damaged, handle);
            assert!(rt; alike(rt.alloc(), &damaged)?, "block at {}", handle.0);
            readable += usize::from(judged(rt.alloc(), &damaged)?);
            all += 1;
        }
    }
    assert!(rt; readable > 50 && readable < all - 50, "{readable} of {all}");
    Ok(())
}

/// The handles of a table's blocks: of its metaindex, its index and its data blocks, which begin
/// after twenty bytes and lie one after the other.
fn handles_in(alloc: Global, bytes: &[u8]) -> Result<Vec<(usize, usize)>> {
    let mut handles = Vec::new(alloc);
    let end = bytes
        .get(bytes.len().saturating_sub(48)..)
        .unwrap_or_default();
    let Some(footer) = Footer::decode(end) else {
        return Ok(handles);
    };
    handles.push((footer.meta_index.offset(), footer.meta_index.size()))?;
    handles.push((footer.index.offset(), footer.index.size()))?;
    handles.push((20, first_size(bytes)))?;
    Ok(handles)
}

/// The size of the first data block: the first one that has a right checksum.
fn first_size(bytes: &[u8]) -> usize {
    for size in 0..bytes.len().saturating_sub(25) {
        let mut digest = digest();
        digest.update(bytes.get(20..20 + size + 1).unwrap_or_default());
        let sum = mask_crc(digest.finalize()).to_le_bytes();
        if bytes.get(20 + size + 1..20 + size + 5) == Some(sum.as_slice()) {
            return size;
        }
    }
    1
}

/// Bytes of the file changed anywhere, and stretches of it left out or doubled.
#[test]
fn damage_anywhere(rt: HostRuntime) -> Result<()> {
    let bytes = built(rt.alloc(), &small_blocks(BloomPolicy::new(10), 60), 4)?;
    let mut random = Random(11);
    for round in 0..700 {
        let mut damaged = bytes.clone()?;
        for _ in 0..1 + random.below(3) {
            let at = random.below(bytes.len() as u64) as usize;
            change_byte(&mut damaged, at, random.below(256) as u8);
        }
        assert!(rt; alike(rt.alloc(), &damaged)?, "round {round}");
        let from = random.below(bytes.len() as u64) as usize;
        let to = random.below(bytes.len() as u64) as usize;
        let mut joined = Vec::from_slice(rt.alloc(), bytes.get(..from).unwrap_or_default())?;
        joined.extend_from_slice(bytes.get(to..).unwrap_or_default())?;
        assert!(rt;
            alike(rt.alloc(), &joined)?,
            "round {round}, {from} and {to}"
        );
    }
    Ok(())
}

/// The table of one internal key is readable.
#[test]
fn one_key(rt: HostRuntime) -> Result<()> {
    let bytes = internal_table(&rt, &Options::default())?;
    assert!(rt; both(rt.alloc(), &bytes, true)?);
    Ok(())
}

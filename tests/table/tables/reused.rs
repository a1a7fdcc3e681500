//! Blocks of many lengths that are read into the buffers of others, which left a small cache.
use super::*;

/// How many pairs the tables have, each in a block of its own.
const COUNT: usize = 100;

/// The value of a pair: each has its own bytes, and lengths go up and down.
fn value_of(alloc: Global, number: usize) -> Result<Vec<u8>> {
    let mut value = Vec::new(alloc);
    for at in 0..number * 37 % 101 + number % 3 * 60 {
        value.push(((number * 31 + at * 7) % 251) as u8)?;
    }
    Ok(value)
}

/// The values of all pairs.
fn values(alloc: Global) -> Result<Vec<Vec<u8>>> {
    let mut values = Vec::new(alloc);
    for number in 0..COUNT {
        values.push(value_of(alloc, number)?)?;
    }
    Ok(values)
}

/// The keys of all pairs.
fn keys(alloc: Global) -> Result<Vec<[u8; 1]>> {
    let mut keys = Vec::new(alloc);
    for number in 0..COUNT {
        keys.push([number as u8])?;
    }
    Ok(keys)
}

/// All pairs, of these keys and values.
fn pairs_of<'a>(
    alloc: Global,
    keys: &'a [[u8; 1]],
    values: &'a [Vec<u8>],
) -> Result<Vec<Given<'a>>> {
    let mut pairs: Vec<Given<'a>> = Vec::new(alloc);
    for (key, value) in keys.iter().zip(values) {
        pairs.push((key.as_slice(), value.as_slice()))?;
    }
    Ok(pairs)
}

/// Looks up each key three times, far from the one before it, and keeps each seventh value.
fn check_finds<E: Env, FP: FilterPolicy>(
    rt: &(impl Abort + AllocGlobal),
    reader: &mut TableReader<'_, E, DefaultCmp, FP>,
    pairs: &[Given<'_>],
    kept: &mut Vec<(usize, Bytes)>,
) -> Result<()> {
    let mut key_buffers = KeyBuffers::new(rt.alloc());
    for step in 0..3 * pairs.len() {
        let number = step * 37 % pairs.len();
        let (key, value) = pairs[number];
        let Some(found) = reader.find(rt.alloc(), key, &mut key_buffers)? else {
            panic!(rt; "no pair of {key:?}");
        };
        assert!(rt; found.as_slice() == value, "of {key:?}");
        if step % 7 == 0 {
            kept.push((number, found))?;
        }
    }
    Ok(())
}

/// Looks up keys and walks over a table with a cache of these many blocks; values that were kept
/// are still what they were.
fn check_with_cache<E: Env, FP: FilterPolicy + Copy + Drop>(
    rt: &(impl Abort + AllocGlobal),
    env: &mut E,
    options: &Options<DefaultCmp, FP>,
    pairs: &[Given<'_>],
    capacity: usize,
) -> Result<()> {
    let mut cache = Cache::new(rt.alloc(), capacity)?;
    let bytes = table_of(rt, options, pairs)?;
    let table = open_file(rt.alloc(), options, env, &mut cache, &bytes)?;
    let mut reader = TableReader {
        table: &table,
        env,
        cache: &mut cache,
        compressors: &options.compressor_list,
    };
    let mut kept = Vec::new(rt.alloc());
    check_finds(rt, &mut reader, pairs, &mut kept)?;
    check_walks(rt, &mut reader, pairs)?;
    check_finds(rt, &mut reader, pairs, &mut kept)?;
    for (number, value) in &kept {
        assert!(rt; value.as_slice() == pairs[*number].1, "kept of {number}");
    }
    Ok(())
}

/// Looks up keys and walks over tables with caches of no, one, three and ten blocks.
fn check_with_caches<E: Env, FP: FilterPolicy + Copy + Drop>(
    rt: &(impl Abort + AllocGlobal),
    env: &mut E,
    options: &Options<DefaultCmp, FP>,
) -> Result<()> {
    let (keys, values) = (keys(rt.alloc())?, values(rt.alloc())?);
    let pairs = pairs_of(rt.alloc(), &keys, &values)?;
    for capacity in [0, 1, 3, 10] {
        check_with_cache(rt, env, options, &pairs, capacity)?;
    }
    Ok(())
}

#[test]
fn reused(rt: HostRuntime) -> Result<()> {
    let mut env = MemEnv::new(rt.alloc());
    check_with_caches(&rt, &mut env, &unfiltered(1))
}

/// A read that is short leaves what a buffer had before after what it gives.
#[test]
fn reused_by_short_reads(rt: HostRuntime) -> Result<()> {
    let mut few = ShortReads::new(MemEnv::new(rt.alloc()));
    check_with_caches(&rt, &mut few, &unfiltered(1))?;
    let mut some = ShortReads::at_most(50, MemEnv::new(rt.alloc()));
    check_with_caches(&rt, &mut some, &unfiltered(1))
}

/// Blocks that aren't stored as they are.
#[test]
fn reused_under_a_compressor(rt: HostRuntime) -> Result<()> {
    let mut options = compressed(rt.alloc())?;
    options.block_size = 1;
    check_with_caches(&rt, &mut MemEnv::new(rt.alloc()), &options)
}

/// So many bytes, which rise by this step.
fn bytes_by(alloc: Global, count: usize, step: usize) -> Result<Vec<u8>> {
    let mut bytes = Vec::new(alloc);
    for at in 0..count {
        bytes.push((at * step % 251) as u8)?;
    }
    Ok(bytes)
}

/// Two blocks of more than a megabyte, by turns in a cache for one, by whole reads and in pieces.
#[test]
fn reused_large_blocks(rt: HostRuntime) -> Result<()> {
    let first = bytes_by(rt.alloc(), 1_300_000, 7)?;
    let second = bytes_by(rt.alloc(), 1_200_000, 3)?;
    let pairs: [Given<'_>; 2] = [(b"a", &first), (b"b", &second)];
    let mut env = MemEnv::new(rt.alloc());
    check_with_cache(&rt, &mut env, &unfiltered(1), &pairs, 1)?;
    let mut pieces = ShortReads::at_most(700_000, MemEnv::new(rt.alloc()));
    check_with_cache(&rt, &mut pieces, &unfiltered(1), &pairs, 1)
}

/// Looks up each key once the file is cut to so many bytes. Returns how many aren't read.
fn lost_by_cut(
    rt: &(impl Abort + AllocGlobal),
    opened: &mut Opened,
    cache: &mut BlockCache<DefaultCmp>,
    bytes: &[u8],
    pairs: &[Given<'_>],
) -> Result<usize> {
    drop(file_of(&mut opened.env, bytes)?);
    let compressors = CompressorList::default();
    let mut reader = opened.reader(cache, &compressors);
    let mut key_buffers = KeyBuffers::new(rt.alloc());
    let mut lost = 0;
    for (key, value) in pairs {
        match reader.find(rt.alloc(), key, &mut key_buffers) {
            Ok(found) => {
                assert!(rt;
                    found.is_some_and(|found| found.as_slice() == *value),
                    "of {key:?}"
                );
            }
            Err(status) => {
                assert!(rt;
                    status.code == StatusCode::Corruption,
                    "of {key:?}: {status}"
                );
                lost += 1;
            }
        }
    }
    Ok(lost)
}

/// A file that is cut within a block, which is read into a buffer that has whole ones of others.
#[test]
fn reused_after_a_cut(rt: HostRuntime) -> Result<()> {
    let (keys, values) = (keys(rt.alloc())?, values(rt.alloc())?);
    let pairs = pairs_of(rt.alloc(), &keys, &values)?;
    let bytes = table_of(&rt, &unfiltered(1), &pairs)?;
    for kept in (0..bytes.len()).step_by(997) {
        let mut cache = Cache::new(rt.alloc(), 3)?;
        let mut opened = Opened::new(&rt, &mut cache, &pairs)?;
        let whole = lost_by_cut(&rt, &mut opened, &mut cache, &bytes, &pairs)?;
        assert!(rt; whole == 0);
        let lost = lost_by_cut(&rt, &mut opened, &mut cache, &bytes[..kept], &pairs)?;
        assert!(rt;
            0 < lost || bytes.len() < kept + 2000,
            "cut to {kept} bytes"
        );
    }
    Ok(())
}

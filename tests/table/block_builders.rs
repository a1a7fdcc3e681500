//! Blocks built, and read again.

use leveldb_base::cmp::DefaultCmp;
use leveldb_base::error::Result;
use leveldb_base::types::LdbIterator;
use leveldb_env::filter::BloomPolicy;
use leveldb_env::options::Options;
use leveldb_table::block::{Block, BlockIter};
use leveldb_table::block_builder::BlockBuilder;
use std::alloc::Global;
use std::process::Abort;

fn spaced(interval: usize) -> Options<DefaultCmp, BloomPolicy> {
    let mut options = Options::default();
    options.block_restart_interval = interval;
    options
}

#[test]
fn empty_block(rt: HostRuntime) -> Result<()> {
    let mut builder = BlockBuilder::new(rt.alloc(), &spaced(16));
    assert!(rt; (builder.entries(), builder.size_estimate()) == (0, 8));
    builder.reset();
    assert!(rt; builder.size_estimate() == 4);
    let block = builder.finish()?;
    assert!(rt; block.as_slice() == [0, 0, 0, 0, 1, 0, 0, 0].as_slice());
    Ok(())
}

/// A builder with six pairs.
fn sample(alloc: Global, interval: usize) -> Result<BlockBuilder<DefaultCmp>> {
    let mut builder = BlockBuilder::new(alloc, &spaced(interval));
    builder.add(b"key1", b"value1")?;
    builder.add(b"loooooooooooooooooooooooooooooooooongerkey1", b"shrtvl1")?;
    builder.add(b"medium length key 1", b"some value 2")?;
    builder.add(b"prefix_key1", b"value")?;
    builder.add(b"prefix_key2", b"value")?;
    builder.add(b"prefix_key3", b"value")?;
    Ok(builder)
}

#[test]
fn estimate_is_the_length(rt: HostRuntime) -> Result<()> {
    let builder = sample(rt.alloc(), 3)?;
    assert!(rt; (builder.entries(), builder.size_estimate()) == (6, 149));
    assert!(rt; builder.last_key() == b"prefix_key3".as_slice());
    assert!(rt; builder.finish()?.len() == 149);
    Ok(())
}

#[test]
fn builds_again_after_a_reset(rt: HostRuntime) -> Result<()> {
    let mut builder = sample(rt.alloc(), 3)?;
    builder.reset();
    assert!(rt; (builder.entries(), builder.size_estimate()) == (0, 4));
    assert!(rt; builder.last_key().is_empty());
    builder.add(b"a", b"")?;
    assert!(rt; builder.size_estimate() == 12);
    let one = builder.finish()?;
    assert!(rt; one.as_slice() == [0, 1, 0, b'a', 0, 0, 0, 0, 1, 0, 0, 0].as_slice());
    Ok(())
}

// How many steps go to a pair, of seven.
fn count_steps(it: &mut BlockIter<'_, DefaultCmp>) -> Result<u32> {
    let mut count = 0u32;
    for _ in 0..7 {
        if !it.advance()? {
            return Ok(count);
        }
        count = count.saturating_add(1);
    }
    Ok(count)
}

// Whether an iterator is at this pair.
fn is_at(it: &BlockIter<'_, DefaultCmp>, key: &[u8], value: &[u8]) -> bool {
    it.current() == Some((key, value))
}

/// Asserts what is found of the six pairs by seeks, and before what is found.
fn assert_seeks(rt: &impl Abort, it: &mut BlockIter<'_, DefaultCmp>) -> Result<()> {
    it.seek(b"prefix_key0")?;
    assert!(rt; is_at(it, b"prefix_key1", b"value"));
    assert!(rt; it.prev()? && is_at(it, b"medium length key 1", b"some value 2"));
    it.seek(b"prefix_key8")?;
    assert!(rt; !it.valid() && !it.prev()?);
    it.seek_to_last()?;
    assert!(rt; is_at(it, b"prefix_key3", b"value"));
    Ok(())
}

/// Asserts that the block of the six pairs is read again.
fn assert_read_again(rt: &(impl Abort + AllocGlobal), interval: usize) -> Result<()> {
    let contents = sample(rt.alloc(), interval)?.finish()?;
    let block = Block::new(rt.alloc(), DefaultCmp, contents)?;
    let mut it = block.iter(rt.alloc());
    assert!(rt; count_steps(&mut it)? == 6, "interval {interval}");
    assert_seeks(rt, &mut it)
}

#[test]
fn read_again(rt: HostRuntime) -> Result<()> {
    for interval in 0..20usize {
        assert_read_again(&rt, interval)?;
    }
    Ok(())
}

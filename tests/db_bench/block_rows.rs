//! Rows of blocks and of their filters.
ghost use Rattle.std.specs.Prelude.{◌≡◌, ◌<◌, None, length, IfOk, IsTrue};
ghost use Rattle.std.specs.declared.cmp.Ordering.TheVariants.{Less};
ghost use Rattle.leveldb_base.specs.Cmp.{bytewise};
ghost use Rattle.leveldb_table.specs.Block.{KeysRise, pairs_of};
ghost use Rattle.leveldb_table.specs.BlockBuilder.{last_added};

use crate::keys::{Numbers, Values, key_of};
use crate::report::{Outcome, Run, Tally, Timer};
use crate::rows::Job;
use leveldb_base::cmp::{Cmp, DefaultCmp};
use leveldb_base::error::{Result, StatusCode, err};
use leveldb_base::types::LdbIterator;
use leveldb_env::filter::BloomPolicy;
use leveldb_env::filter_block::{FilterBlockBuilder, FilterBlockReader};
use leveldb_env::options::Options;
use leveldb_table::block::{Block, BlockIter};
use leveldb_table::block_builder::BlockBuilder;
use std::alloc::Global;
use std::mem;
use std::time::Clock;

const BITS_PER_KEY: u32 = 10;

// Whether a key is after all keys of a block, which rise.
fn is_after(builder: &BlockBuilder<DefaultCmp>, key: &[u8]) -> bool
    ensures after { IsTrue result → 0 < length builder.now.entries
        → bytewise (last_added (pairs_of None builder.now.entries)) key.now ≡ Less }
    ensures rising { KeysRise bytewise (pairs_of None builder.now.entries) }
{
    let last = builder.last_key();
    builder.entries() == 0 || DefaultCmp.cmp(last, key).is_lt()
}

// Adds the pair of a number to a block.
#[tactic(auto, using(crate::proofs::Rising::added_rises))]
fn add(
    alloc: Global,
    builder: &mut BlockBuilder<DefaultCmp>,
    values: &Values,
    number: u64,
) -> Result<()> {
    let key = key_of(number);
    if is_after(builder, &key) {
        return builder.add(&key, values.value_of(number));
    }
    err(alloc, StatusCode::InvalidArgument, "keys don't rise")
}

// Builds blocks of the options' size from the pairs of the first numbers.
fn build_blocks(alloc: Global, values: &Values, ops: u64, checked: bool) -> Result<Outcome>
    ensures { IfOk result (λ outcome. outcome.ops ≡ ops) }
{
    let mut tally = Tally::new(checked);
    let options = Options::default();
    let mut builder = BlockBuilder::new(alloc, &options);
    for number in 0..ops {
        if builder.size_estimate() > options.block_size {
            let full = mem::replace(&mut builder, BlockBuilder::new(alloc, &options));
            tally.see(full.finish()?.as_slice());
        }
        add(alloc, &mut builder, values, number)?;
    }
    tally.see(builder.finish()?.as_slice());
    Ok(tally.outcome(ops))
}

/// Builds blocks of pairs in order.
pub fn build<K: Clock>(alloc: Global, clock: &K, job: Job) -> Result<Run>
    ensures { IfOk result (λ run. run.outcome.ops ≡ job.scale.num) }
{
    let values = Values::new(alloc, job.scale.value_size)?;
    let timer = Timer::start(clock)?;
    timer.stop(build_blocks(alloc, &values, job.scale.num, job.checked)?)
}

// A block of the options' size, of the pairs of the first numbers, or of all of them.
fn sample(alloc: Global, job: Job) -> Result<Block<DefaultCmp>> {
    let options = Options::default();
    let values = Values::new(alloc, job.scale.value_size)?;
    let mut builder = BlockBuilder::new(alloc, &options);
    for number in 0..job.scale.num {
        if builder.size_estimate() > options.block_size {
            break;
        }
        add(alloc, &mut builder, &values, number)?;
    }
    Block::new(alloc, DefaultCmp, builder.finish()?)
}

// Counts the pair at which an iterator is.
#[inline]
fn see_current(it: &BlockIter<'_, DefaultCmp>, tally: &mut Tally) {
    if let Some((key, value)) = it.current() {
        tally.see(key);
        tally.see(value);
    }
}

// Goes to the next pair, and from the last one to the first again.
fn go_forward(it: &mut BlockIter<'_, DefaultCmp>, ops: u64, checked: bool) -> Result<Outcome>
    ensures { IfOk result (λ outcome. outcome.ops ≡ ops) }
{
    let mut tally = Tally::new(checked);
    for _ in 0..ops {
        if !it.advance()? {
            it.seek_to_first()?;
        }
        see_current(it, &mut tally);
    }
    Ok(tally.outcome(ops))
}

/// Goes to the next pair of a block, again and again.
pub fn step_forward<K: Clock>(alloc: Global, clock: &K, job: Job) -> Result<Run>
    ensures { IfOk result (λ run. run.outcome.ops ≡ job.scale.num) }
{
    let block = sample(alloc, job)?;
    let mut it = block.iter(alloc);
    let timer = Timer::start(clock)?;
    timer.stop(go_forward(&mut it, job.scale.num, job.checked)?)
}

// Goes to the pair before, and from the first one to the last again.
fn go_back(it: &mut BlockIter<'_, DefaultCmp>, ops: u64, checked: bool) -> Result<Outcome>
    ensures { IfOk result (λ outcome. outcome.ops ≡ ops) }
{
    let mut tally = Tally::new(checked);
    for _ in 0..ops {
        if !it.prev()? {
            it.seek_to_last()?;
        }
        see_current(it, &mut tally);
    }
    Ok(tally.outcome(ops))
}

/// Goes to the pair before in a block, again and again.
pub fn step_back<K: Clock>(alloc: Global, clock: &K, job: Job) -> Result<Run>
    ensures { IfOk result (λ run. run.outcome.ops ≡ job.scale.num) }
{
    let block = sample(alloc, job)?;
    let mut it = block.iter(alloc);
    let timer = Timer::start(clock)?;
    timer.stop(go_back(&mut it, job.scale.num, job.checked)?)
}

// How many pairs a block has, at most so many, and at least 1.
fn count_pairs(alloc: Global, block: &Block<DefaultCmp>, most: u64) -> Result<u64>
    requires { 0 < most }
    ensures { IfOk result (λ count. 0 < count) }
{
    let mut it = block.iter(alloc);
    for count in 0..most {
        if !it.advance()? {
            return Ok(count.max(1));
        }
    }
    Ok(most)
}

// Seeks the keys of the next numbers.
fn seek_all(
    it: &mut BlockIter<'_, DefaultCmp>,
    numbers: &mut Numbers,
    ops: u64,
    checked: bool,
) -> Result<Outcome>
    ensures { IfOk result (λ outcome. outcome.ops ≡ ops) }
{
    let mut tally = Tally::new(checked);
    for _ in 0..ops {
        it.seek(&key_of(numbers.next_number()))?;
        see_current(it, &mut tally);
    }
    Ok(tally.outcome(ops))
}

/// Seeks keys of a block at random.
pub fn seek<K: Clock>(alloc: Global, clock: &K, job: Job) -> Result<Run>
    ensures { IfOk result (λ run. run.outcome.ops ≡ job.scale.num) }
{
    let num = job.scale.num;
    let block = sample(alloc, job)?;
    let mut numbers = Numbers::random(count_pairs(alloc, &block, num)?);
    let mut it = block.iter(alloc);
    let timer = Timer::start(clock)?;
    timer.stop(seek_all(&mut it, &mut numbers, num, job.checked)?)
}

// The filter of the keys of the first numbers.
fn filter_of(alloc: Global, ops: u64) -> Result<Vec<u8>> {
    let mut builder = FilterBlockBuilder::new(alloc, BloomPolicy::new(BITS_PER_KEY));
    for number in 0..ops {
        builder.add_key(&key_of(number))?;
    }
    builder.finish()
}

/// Builds one filter of all keys.
pub fn build_filter<K: Clock>(alloc: Global, clock: &K, job: Job) -> Result<Run>
    ensures { IfOk result (λ run. run.outcome.ops ≡ job.scale.num) }
{
    let num = job.scale.num;
    let mut tally = Tally::new(job.checked);
    let timer = Timer::start(clock)?;
    let filter = filter_of(alloc, num)?;
    tally.see(&filter);
    timer.stop(tally.outcome(num))
}

// Looks for the keys of the next numbers.
fn match_all(
    reader: &FilterBlockReader<BloomPolicy>,
    numbers: &mut Numbers,
    ops: u64,
    checked: bool,
) -> Outcome
    ensures { result.ops ≡ ops }
{
    let mut tally = Tally::new(checked);
    for _ in 0..ops {
        let key = key_of(numbers.next_number());
        if reader.key_may_match(0, &key) {
            tally.see(&key);
        }
    }
    tally.outcome(ops)
}

/// Looks for keys in the filter of all keys, of which every second isn't there.
pub fn match_keys<K: Clock>(alloc: Global, clock: &K, job: Job) -> Result<Run>
    ensures { IfOk result (λ run. run.outcome.ops ≡ job.scale.num) }
{
    let num = job.scale.num;
    let policy = BloomPolicy::new(BITS_PER_KEY);
    let filter = filter_of(alloc, num)?;
    let reader = FilterBlockReader::new_owned(alloc, policy, filter)?;
    let mut numbers = Numbers::random(2 * num);
    let timer = Timer::start(clock)?;
    timer.stop(match_all(&reader, &mut numbers, num, job.checked))
}

//! Tables that share a cache of blocks.
use super::*;

/// Walks over a table of the twelve pairs in all ways, and looks up keys.
fn check_both_ways<E: Env, FP: FilterPolicy>(
    rt: &(impl Abort + AllocGlobal),
    table: &Table<E, DefaultCmp, FP>,
    env: &mut E,
    cache: &mut BlockCache<DefaultCmp>,
) -> Result<()> {
    let mut reader = TableReader {
        table,
        env,
        cache,
        compressors: &CompressorList::default(),
    };
    check_reads(rt, &mut reader, &PAIRS, false)
}

/// Goes over two tables in turn, twice.
fn check_in_turn<E: Env, FP: FilterPolicy>(
    rt: &(impl Abort + AllocGlobal),
    first: &Table<E, DefaultCmp, FP>,
    second: &Table<E, DefaultCmp, FP>,
    env: &mut E,
    cache: &mut BlockCache<DefaultCmp>,
) -> Result<()> {
    for _ in 0..2 {
        check_both_ways(rt, first, env, cache)?;
        check_both_ways(rt, second, env, cache)?;
    }
    Ok(())
}

/// Goes over two tables of one file.
fn check_opened_twice(
    rt: &(impl Abort + AllocGlobal),
    cache: &mut BlockCache<DefaultCmp>,
) -> Result<()> {
    let mut first = Opened::new(rt, cache, &PAIRS)?;
    let second = table_in(rt, &mut first.env, cache, &PAIRS)?;
    check_in_turn(rt, &first.table, &second, &mut first.env, cache)
}

/// Asserts that two tables of one file have their pairs, and that a cache with this capacity holds
/// as many of their 24 blocks as it can.
fn assert_opened_twice(rt: &(impl Abort + AllocGlobal), capacity: usize) -> Result<()> {
    let mut cache = Cache::new(rt.alloc(), capacity)?;
    check_opened_twice(rt, &mut cache)?;
    assert!(rt; cache.count() == capacity.min(24));
    Ok(())
}

#[test]
fn opened_twice_with_a_cache_for_one_block(rt: HostRuntime) -> Result<()> {
    assert_opened_twice(&rt, 1)
}

/// A cache with room for no block keeps none: each block is read from the file.
#[test]
fn opened_twice_without_a_cache(rt: HostRuntime) -> Result<()> {
    assert_opened_twice(&rt, 0)
}

#[test]
fn opened_twice_with_a_cache_for_all_blocks(rt: HostRuntime) -> Result<()> {
    assert_opened_twice(&rt, 100)
}

/// Whether a look-up with a cache that holds no block fails by damage.
fn fails_uncached<E: Env, FP: FilterPolicy>(
    alloc: Global,
    table: &Table<E, DefaultCmp, FP>,
    env: &mut E,
) -> Result<bool> {
    let mut cache = Cache::new(alloc, 12)?;
    let answer = table.get(alloc, env, &mut cache, &CompressorList::default(), b"a");
    failed_with(answer, StatusCode::Corruption)
}

/// Asserts that the blocks that a cache holds are read once their file is empty, and that another
/// cache doesn't help.
fn assert_cached<E: Env, FP: FilterPolicy>(
    rt: &(impl Abort + AllocGlobal),
    table: &Table<E, DefaultCmp, FP>,
    env: &mut E,
    cache: &mut BlockCache<DefaultCmp>,
) -> Result<()> {
    drop(file_of(env, b"")?);
    check_both_ways(rt, table, env, cache)?;
    assert!(rt; fails_uncached(rt.alloc(), table, env)?);
    Ok(())
}

#[test]
fn emptied_file(rt: HostRuntime) -> Result<()> {
    let mut cache = Cache::new(rt.alloc(), 12)?;
    let mut opened = Opened::new(&rt, &mut cache, &PAIRS)?;
    check_both_ways(&rt, &opened.table, &mut opened.env, &mut cache)?;
    assert_cached(&rt, &opened.table, &mut opened.env, &mut cache)
}

/// Walks over a table, and returns how many pairs it has.
fn walk(
    alloc: Global,
    opened: &mut Opened,
    cache: &mut BlockCache<DefaultCmp>,
    fills: bool,
) -> Result<usize> {
    let mut core = TableCore::new(alloc, &opened.table)?.filling(fills);
    let compressors = CompressorList::default();
    let mut reader = opened.reader(cache, &compressors);
    let mut count = 0;
    while core.advance(&mut reader)? {
        count += 1;
    }
    Ok(count)
}

/// A walk that fills no cache still finds the blocks that are there, once the file is empty.
#[test]
fn walks_that_fill_no_cache(rt: HostRuntime) -> Result<()> {
    let mut cache = Cache::new(rt.alloc(), 100)?;
    let mut opened = Opened::new(&rt, &mut cache, &PAIRS)?;
    assert!(rt; walk(rt.alloc(), &mut opened, &mut cache, false)? == 12);
    assert!(rt; cache.count() == 0);
    assert!(rt; walk(rt.alloc(), &mut opened, &mut cache, true)? == 12);
    assert!(rt; cache.count() == 12);
    drop(file_of(&mut opened.env, b"")?);
    assert!(rt; walk(rt.alloc(), &mut opened, &mut cache, false)? == 12);
    Ok(())
}

/// How many pairs a walk goes to from the first one at or after a key on, before one that it can't
/// read.
fn pairs_from(
    alloc: Global,
    opened: &mut Opened,
    cache: &mut BlockCache<DefaultCmp>,
    key: &[u8],
) -> Result<usize> {
    let mut core = TableCore::new(alloc, &opened.table)?;
    let compressors = CompressorList::default();
    let mut reader = opened.reader(cache, &compressors);
    let _ = core.seek(&mut reader, key);
    let mut count = 0;
    while core.valid() {
        count += 1;
        let _ = core.advance(&mut reader);
    }
    Ok(count)
}

/// Walks over the twelve blocks of a table with a cache for so many, and asserts that from a key on
/// so many pairs are left once the file is empty.
fn assert_left(
    rt: &(impl Abort + AllocGlobal),
    capacity: usize,
    left: &[(&[u8], usize)],
) -> Result<()> {
    let mut cache = Cache::new(rt.alloc(), capacity)?;
    let mut opened = Opened::new(rt, &mut cache, &PAIRS)?;
    assert!(rt; walk(rt.alloc(), &mut opened, &mut cache, true)? == 12);
    drop(file_of(&mut opened.env, b"")?);
    for (key, count) in left {
        assert!(rt; pairs_from(rt.alloc(), &mut opened, &mut cache, key)? == *count);
    }
    Ok(())
}

/// The first seven blocks of a walk take the place of others, and the next ones only room that is
/// left: of ten the first stay, and of four those from the fourth to the seventh.
#[test]
fn long_walks(rt: HostRuntime) -> Result<()> {
    assert_left(&rt, 10, &[(b"", 10)])?;
    assert_left(&rt, 4, &[(b"ab", 4), (b"", 0)])
}

/// A read that fails leaves the place of one block empty, and further ones that of no other.
#[test]
fn failed_reads(rt: HostRuntime) -> Result<()> {
    let mut cache = Cache::new(rt.alloc(), 4)?;
    let mut opened = Opened::new(&rt, &mut cache, &PAIRS)?;
    assert!(rt; walk(rt.alloc(), &mut opened, &mut cache, true)? == 12);
    assert!(rt; cache.count() == 4);
    drop(file_of(&mut opened.env, b"")?);
    for _ in 0..3 {
        assert!(rt; pairs_from(rt.alloc(), &mut opened, &mut cache, b"")? == 0);
        assert!(rt; cache.count() == 3);
    }
    Ok(())
}

const ODD: [Given<'static>; 2] = [(b"a", b"1"), (b"b", b"3")];

const EVEN: [Given<'static>; 2] = [(b"a", b"2"), (b"b", b"4")];

/// Whether two tables have the keys of a list at equal offsets.
fn have_equal_offsets<E: Env, FP: FilterPolicy>(
    alloc: Global,
    odd: &Table<E, DefaultCmp, FP>,
    even: &Table<E, DefaultCmp, FP>,
) -> Result<bool> {
    for (key, _) in &ODD {
        if odd.approx_offset_of(alloc, key)? != even.approx_offset_of(alloc, key)? {
            return Ok(false);
        }
    }
    Ok(true)
}

fn check_values(
    rt: &(impl Abort + AllocGlobal),
    opened: &mut Opened,
    cache: &mut BlockCache<DefaultCmp>,
    pairs: &[Given<'_>],
) -> Result<()> {
    let compressors = CompressorList::default();
    check_gets(rt, &mut opened.reader(cache, &compressors), pairs, false)
}

/// Looks up keys in two tables in turn, twice.
fn check_values_in_turn(
    rt: &(impl Abort + AllocGlobal),
    odd: &mut Opened,
    even: &mut Opened,
    cache: &mut BlockCache<DefaultCmp>,
) -> Result<()> {
    for _ in 0..2 {
        check_values(rt, odd, cache, &ODD)?;
        check_values(rt, even, cache, &EVEN)?;
    }
    Ok(())
}

/// Two tables with blocks at equal offsets, of equal keys and lengths, have each its own values.
#[test]
fn equal_offsets(rt: HostRuntime) -> Result<()> {
    let mut cache = Cache::new(rt.alloc(), 100)?;
    let mut odd = Opened::new(&rt, &mut cache, &ODD)?;
    let mut even = Opened::new(&rt, &mut cache, &EVEN)?;
    assert!(rt; have_equal_offsets(rt.alloc(), &odd.table, &even.table)?);
    check_values_in_turn(&rt, &mut odd, &mut even, &mut cache)?;
    assert!(rt; cache.count() == 4);
    Ok(())
}

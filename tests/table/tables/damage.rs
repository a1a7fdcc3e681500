//! Tables of which a byte is wrong or the end is missing, and tables of a compressor.
use super::*;

/// The handle of the data block that an index's one line names.
fn data_handle(alloc: Global, index: &Block<DefaultCmp>) -> Result<Option<BlockHandle>> {
    let mut lines = index.iter(alloc);
    lines.advance()?;
    let handle = lines.current().and_then(|line| BlockHandle::decode(line.1));
    if lines.advance()? {
        return Ok(None);
    }
    Ok(handle.map(|read| read.0))
}

/// Whether a data block has the eight pairs.
fn has_eight_pairs(
    alloc: Global,
    env: &mut MemEnv,
    file: &<MemEnv as Env>::File,
    compressors: &CompressorList,
    handle: BlockHandle,
) -> Result<bool> {
    let block = read_table_block(alloc, DefaultCmp, env, file, compressors, handle)?;
    has_pairs(alloc, &block, &EIGHT)
}

/// Whether a block isn't read without the compressor of the id 7.
fn needs_its_compressor(
    alloc: Global,
    env: &mut MemEnv,
    file: &<MemEnv as Env>::File,
    handle: BlockHandle,
) -> Result<bool> {
    let none = CompressorList::default();
    let answer = read_table_block(alloc, DefaultCmp, env, file, &none, handle);
    let text = "invalid compression id `7`";
    failed_saying(answer, StatusCode::NotSupported, text)
}

/// Asserts that the one data block of an index has the eight pairs, and isn't read without its
/// compressor.
fn assert_compressed(
    rt: &(impl Abort + AllocGlobal),
    env: &mut MemEnv,
    file: &<MemEnv as Env>::File,
    compressors: &CompressorList,
    index: BlockHandle,
) -> Result<()> {
    let index = read_table_block(rt.alloc(), DefaultCmp, env, file, compressors, index)?;
    let Some(data) = data_handle(rt.alloc(), &index)? else {
        panic!(rt; "no handle");
    };
    assert!(rt; has_eight_pairs(rt.alloc(), env, file, compressors, data)?);
    assert!(rt; needs_its_compressor(rt.alloc(), env, file, data)?);
    Ok(())
}

/// The table of a compressor, read from its footer on.
#[test]
fn by_a_compressor(rt: HostRuntime) -> Result<()> {
    let options = compressed(rt.alloc())?;
    let bytes = table_of(&rt, &options, &EIGHT)?;
    assert!(rt; bytes.len() == 233);
    let mut env = MemEnv::new(rt.alloc());
    let file = file_of(&mut env, &bytes)?;
    let index = footer_of(&rt, &bytes).index;
    assert_compressed(&rt, &mut env, &file, &options.compressor_list, index)
}

/// Whether a walk goes to these pairs until a step fails by damage, which leaves no position.
fn step_fails<E: Env, C: Cmp + Copy + Drop, FP: FilterPolicy>(
    it: &mut TableIterator<'_, E, C, FP>,
    pairs: &[Given<'_>],
) -> Result<bool> {
    for pair in pairs {
        let answer = it.advance();
        if answer.is_err() {
            return Ok(failed_with(answer, StatusCode::Corruption)? && is_at(it, None));
        }
        if !answer? || !is_at(it, Some(*pair)) {
            return Ok(false);
        }
    }
    Ok(false)
}

/// Whether a damaged table wasn't opened, or a walk over it goes to its pairs until a step fails.
fn walk_fails<E: Env, C: Cmp + Copy + Drop, FP: FilterPolicy + Drop>(
    alloc: Global,
    opened: Result<Table<E, C, FP>>,
    env: &mut E,
    cache: &mut BlockCache<C>,
    compressors: &CompressorList,
    pairs: &[Given<'_>],
) -> Result<bool> {
    match opened {
        Ok(table) => step_fails(&mut table.iter(alloc, env, cache, compressors)?, pairs),
        answer => failed_with(answer, StatusCode::Corruption),
    }
}

/// Whether a damaged table of internal keys isn't opened, or a walk over it fails.
fn internal_fails(
    alloc: Global,
    options: &Options<DefaultCmp, BloomPolicy>,
    bytes: &[u8],
    pairs: &[Given<'_>],
) -> Result<bool> {
    let mut env = MemEnv::new(alloc);
    let file = file_of(&mut env, bytes)?;
    let mut cache = Cache::new(alloc, 3)?;
    let opened = Table::new(alloc, options, &mut env, &mut cache, file, bytes.len());
    let compressors = &options.compressor_list;
    walk_fails(alloc, opened, &mut env, &mut cache, compressors, pairs)
}

/// The same of a table under the order and the policy of its options.
fn raw_fails(
    alloc: Global,
    options: &Options<DefaultCmp, BloomPolicy>,
    bytes: &[u8],
    pairs: &[Given<'_>],
) -> Result<bool> {
    let mut env = MemEnv::new(alloc);
    let mut cache = Cache::new(alloc, 3)?;
    let opened = open_file(alloc, options, &mut env, &mut cache, bytes);
    let compressors = &options.compressor_list;
    walk_fails(alloc, opened, &mut env, &mut cache, compressors, pairs)
}

/// Every cut, and every byte raised by one, of a table under its options' order.
#[test]
fn each_byte(rt: HostRuntime) -> Result<()> {
    let options = compressed(rt.alloc())?;
    let mut bytes = table_of(&rt, &options, &EIGHT)?;
    for i in 0..bytes.len() {
        let cut = bytes.get(..i).unwrap_or_default();
        assert!(rt; raw_fails(rt.alloc(), &options, cut, &EIGHT)?, "{i} bytes");
        change_byte(&mut bytes, i, 1);
        assert!(rt;
            raw_fails(rt.alloc(), &options, &bytes, &EIGHT)?,
            "byte {i}"
        );
        change_byte(&mut bytes, i, 255);
    }
    Ok(())
}

/// The same of a table of internal keys.
#[test]
fn each_byte_by_internal_keys(rt: HostRuntime) -> Result<()> {
    let options = Options::default();
    let mut bytes = internal_table(&rt, &options)?;
    for i in 0..bytes.len() {
        let cut = bytes.get(..i).unwrap_or_default();
        assert!(rt;
            internal_fails(rt.alloc(), &options, cut, &ONE)?,
            "{i} bytes"
        );
        change_byte(&mut bytes, i, 1);
        assert!(rt;
            internal_fails(rt.alloc(), &options, &bytes, &ONE)?,
            "byte {i}"
        );
        change_byte(&mut bytes, i, 255);
    }
    Ok(())
}

/// Whether bytes aren't opened as a table.
fn is_no_table(alloc: Global, bytes: &[u8]) -> Result<bool> {
    let mut env = MemEnv::new(alloc);
    let mut cache = Cache::new(alloc, 1)?;
    let options: Options<DefaultCmp, BloomPolicy> = Options::default();
    let answer = open_file(alloc, &options, &mut env, &mut cache, bytes);
    failed_with(answer, StatusCode::Corruption)
}

/// A table with another footer.
fn with_footer(alloc: Global, table: &[u8], footer: &Footer) -> Result<Vec<u8>> {
    let front = table.get(..table.len().saturating_sub(48));
    let mut bytes = Vec::from_slice(alloc, front.unwrap_or_default())?;
    let mut end = [0; 48];
    footer.encode(&mut end);
    bytes.extend_from_slice(&end)?;
    Ok(bytes)
}

/// Files of zeros that are too short for a footer, or exactly as long as one.
#[test]
fn zeros(rt: HostRuntime) -> Result<()> {
    for size in [0, 1, 47, 48] {
        let bytes = [0; 48];
        let cut = bytes.as_slice().get(..size).unwrap_or_default();
        assert!(rt; is_no_table(rt.alloc(), cut)?, "{size} bytes");
    }
    Ok(())
}

/// Whether a table with another footer isn't opened.
fn is_refused(alloc: Global, table: &[u8], footer: &Footer) -> Result<bool> {
    is_no_table(alloc, &with_footer(alloc, table, footer)?)
}

/// Asserts that a table with this handle in place of either of its footer's isn't opened.
fn assert_neither(
    rt: &(impl Abort + AllocGlobal),
    table: &[u8],
    footer: &Footer,
    (offset, size): (usize, usize),
) -> Result<()> {
    let far = BlockHandle::new(offset, size);
    let without_meta_index = is_refused(rt.alloc(), table, &Footer::new(far, footer.index))?;
    let without_index = is_refused(rt.alloc(), table, &Footer::new(footer.meta_index, far))?;
    assert!(rt; without_meta_index && without_index, "{offset} {size}");
    Ok(())
}

/// Footers one handle of which names no bytes of the file, or bytes that end after it. The right
/// footer is taken.
#[test]
fn handles_past_the_file(rt: HostRuntime) -> Result<()> {
    let bytes = table_of(&rt, &Options::default(), &EIGHT)?;
    let footer = footer_of(&rt, &bytes);
    assert!(rt; with_footer(rt.alloc(), &bytes, &footer)? == bytes);
    let len = bytes.len();
    for handle in [
        (len, 8),
        (0, len),
        (len, 0),
        (usize::MAX, 8),
        (8, usize::MAX),
        (usize::MAX, usize::MAX),
    ] {
        assert_neither(&rt, &bytes, &footer, handle)?;
    }
    Ok(())
}

/// Whether no filters are read at a handle of size 0.
fn has_no_filters(
    alloc: Global,
    env: &mut MemEnv,
    file: &<MemEnv as Env>::File,
    offset: usize,
) -> Result<bool> {
    let handle = BlockHandle::new(offset, 0);
    let answer = read_filter_block(alloc, BloomPolicy::new(10), env, file, handle);
    failed_with(answer, StatusCode::InvalidArgument)
}

/// A handle of size 0 stands for no filters, whatever its offset.
#[test]
fn no_filters(rt: HostRuntime) -> Result<()> {
    let bytes = table_of(&rt, &Options::default(), &EIGHT)?;
    let mut env = MemEnv::new(rt.alloc());
    let file = file_of(&mut env, &bytes)?;
    for offset in [0, 87, usize::MAX] {
        let is_right = has_no_filters(rt.alloc(), &mut env, &file, offset)?;
        assert!(rt; is_right, "at {offset}");
    }
    Ok(())
}

/// Whether a file isn't opened as a table, and the error says this.
fn opening_says(
    alloc: Global,
    options: &Options<DefaultCmp, BloomPolicy>,
    bytes: &[u8],
    text: &str,
) -> Result<bool> {
    let mut env = MemEnv::new(alloc);
    let mut cache = Cache::new(alloc, 1)?;
    let answer = open_file(alloc, options, &mut env, &mut cache, bytes);
    failed_saying(answer, StatusCode::Corruption, text)
}

/// The same of a table with another footer.
fn footer_says(
    alloc: Global,
    options: &Options<DefaultCmp, BloomPolicy>,
    table: &[u8],
    footer: &Footer,
    text: &str,
) -> Result<bool> {
    let bytes = with_footer(alloc, table, footer)?;
    opening_says(alloc, options, &bytes, text)
}

/// Bytes of the filters, the metaindex, the index and the footer of a table, and what opening it
/// says where one of them is raised: the data block has 82 and 5 bytes, and then come 20 and 5, 47
/// and 5, 16 and 5, and 48.
const SAID: [(usize, &str); 6] = [
    (87, "Corruption: block at 87: wrong checksum"),
    (111, "Corruption: block at 87: wrong checksum"),
    (112, "Corruption: block at 112: wrong checksum"),
    (164, "Corruption: block at 164: wrong checksum"),
    (
        224,
        "Corruption: footer at 185: no magic number, or bad handles",
    ),
    (
        232,
        "Corruption: footer at 185: no magic number, or bad handles",
    ),
];

/// An error of damage says which part of the table it is in, at which offset, and how.
#[test]
fn damage_says_where(rt: HostRuntime) -> Result<()> {
    let options = compressed(rt.alloc())?;
    let mut bytes = table_of(&rt, &options, &EIGHT)?;
    for (place, text) in &SAID {
        change_byte(&mut bytes, *place, 1);
        assert!(rt;
            opening_says(rt.alloc(), &options, &bytes, text)?,
            "byte {place}"
        );
        change_byte(&mut bytes, *place, 255);
    }
    Ok(())
}

/// The same where bytes are missing: of a file that is too short, and after a handle's offset.
#[test]
fn missing_bytes_say_where(rt: HostRuntime) -> Result<()> {
    let options = Options::default();
    let bytes = table_of(&rt, &options, &EIGHT)?;
    let cut = bytes.get(..47).unwrap_or_default();
    let text = "Corruption: table of 47 bytes: too short for a footer";
    assert!(rt; opening_says(rt.alloc(), &options, cut, text)?);
    let far = Footer::new(footer_of(&rt, &bytes).meta_index, BlockHandle::new(5000, 8));
    let text = "Corruption: block at 5000: past the end of the file";
    assert!(rt; footer_says(rt.alloc(), &options, &bytes, &far, text)?);
    Ok(())
}

/// Whether a key isn't looked up in an open table, and the error says this.
fn get_says(
    alloc: Global,
    reader: &mut TableReader<'_, MemEnv, DefaultCmp, BloomPolicy>,
    text: &str,
) -> Result<bool> {
    failed_saying(reader.get(alloc, b"abc"), StatusCode::Corruption, text)
}

/// The same of a table that is opened for it.
fn look_up_says(
    alloc: Global,
    options: &Options<DefaultCmp, BloomPolicy>,
    bytes: &[u8],
    text: &str,
) -> Result<bool> {
    let mut env = MemEnv::new(alloc);
    let mut cache = Cache::new(alloc, 0)?;
    let table = open_file(alloc, options, &mut env, &mut cache, bytes)?;
    let mut reader = TableReader {
        table: &table,
        env: &mut env,
        cache: &mut cache,
        compressors: &options.compressor_list,
    };
    get_says(alloc, &mut reader, text)
}

/// The same of a data block, once a key is looked up in it.
#[test]
fn damaged_block_says_where(rt: HostRuntime) -> Result<()> {
    let options = compressed(rt.alloc())?;
    let mut bytes = table_of(&rt, &options, &EIGHT)?;
    change_byte(&mut bytes, 40, 1);
    let text = "Corruption: block at 0: wrong checksum";
    assert!(rt; look_up_says(rt.alloc(), &options, &bytes, text)?);
    Ok(())
}

/// The same of an index whose values are no handles: the data block in its place.
#[test]
fn index_without_handles_says_where(rt: HostRuntime) -> Result<()> {
    let options = compressed(rt.alloc())?;
    let bytes = table_of(&rt, &options, &EIGHT)?;
    let data = BlockHandle::new(0, 82);
    let footer = Footer::new(footer_of(&rt, &bytes).meta_index, data);
    let bytes = with_footer(rt.alloc(), &bytes, &footer)?;
    let text = "Corruption: index at 0: no handle of a block";
    assert!(rt; look_up_says(rt.alloc(), &options, &bytes, text)?);
    Ok(())
}

/// The filters' key, with a value that is no handle.
const NO_FILTERS: [Given<'static>; 1] = [(b"filter.leveldb.BuiltinBloomFilter2", b"abc")];

/// The same of a metaindex: the data block in its place, whose 48 bytes are one entry of 40 and
/// one restart point.
#[test]
fn metaindex_without_handle_says_where(rt: HostRuntime) -> Result<()> {
    let options = Options::default();
    let bytes = table_of(&rt, &options, &NO_FILTERS)?;
    let data = BlockHandle::new(0, 48);
    let footer = Footer::new(data, footer_of(&rt, &bytes).index);
    let text = "Corruption: metaindex at 0: no handle of a block";
    assert!(rt; footer_says(rt.alloc(), &options, &bytes, &footer, text)?);
    Ok(())
}

/// The same of a table whose file is deleted once it is open.
fn deleted_says(
    alloc: Global,
    options: &Options<DefaultCmp, BloomPolicy>,
    bytes: &[u8],
    text: &str,
) -> Result<bool> {
    let mut env = MemEnv::new(alloc);
    let mut cache = Cache::new(alloc, 1)?;
    let table = open_file(alloc, options, &mut env, &mut cache, bytes)?;
    env.delete("table")?;
    let mut reader = TableReader {
        table: &table,
        env: &mut env,
        cache: &mut cache,
        compressors: &options.compressor_list,
    };
    get_says(alloc, &mut reader, text)
}

/// A table whose file is deleted while it is open: a block that the cache doesn't have isn't read,
/// and the error says that the file is missing.
#[test]
fn deleted_under_an_open_table(rt: HostRuntime) -> Result<()> {
    let options = Options::default();
    let bytes = table_of(&rt, &options, &EIGHT)?;
    let text = "Corruption: table at 0: the file is missing";
    assert!(rt; deleted_says(rt.alloc(), &options, &bytes, text)?);
    Ok(())
}

/// Opens the table that a file of these bytes is, without its filters.
fn open_unfiltered<E: Env>(
    alloc: Global,
    options: &Options<DefaultCmp, BloomPolicy>,
    env: &mut E,
    cache: &mut BlockCache<DefaultCmp>,
    bytes: &[u8],
) -> Result<Table<E, DefaultCmp, BloomPolicy>> {
    let file = file_of(env, bytes)?;
    let compressors = &options.compressor_list;
    Table::open_no_filter(
        alloc,
        options.cmp,
        compressors,
        env,
        cache,
        file,
        bytes.len(),
    )
}

/// Asserts that the table of the twelve pairs is read without its filters.
fn assert_unfiltered(
    rt: &(impl Abort + AllocGlobal),
    options: &Options<DefaultCmp, BloomPolicy>,
    bytes: &[u8],
) -> Result<()> {
    let mut env = MemEnv::new(rt.alloc());
    let mut cache = Cache::new(rt.alloc(), 3)?;
    let table = open_unfiltered(rt.alloc(), options, &mut env, &mut cache, bytes)?;
    let mut reader = TableReader {
        table: &table,
        env: &mut env,
        cache: &mut cache,
        compressors: &options.compressor_list,
    };
    check_reads(rt, &mut reader, &PAIRS, false)
}

/// Damaged filters are passed over by a table that is opened without them, and by no other.
#[test]
fn damaged_filters_are_passed_over(rt: HostRuntime) -> Result<()> {
    let options = Options::default();
    let mut bytes = table_of(&rt, &options, &PAIRS)?;
    let end = footer_of(&rt, &bytes).meta_index.offset();
    change_byte(&mut bytes, end.saturating_sub(6), 1);
    assert!(rt; is_no_table(rt.alloc(), &bytes)?);
    assert_unfiltered(&rt, &options, &bytes)
}

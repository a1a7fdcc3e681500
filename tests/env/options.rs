//! What options are if nothing else is chosen, and which are taken.
use leveldb_base::cmp::{Cmp, DefaultCmp};
use leveldb_base::error::StatusCode::{InvalidArgument, NotSupported, OK};
use leveldb_base::error::{Result, StatusCode};
use leveldb_env::env::Env;
use leveldb_env::filter::{BloomPolicy, FilterPolicy};
use leveldb_env::mem_env::MemEnv;
use leveldb_env::options::{Options, for_test, in_memory};
use std::alloc::Global;
use support::code_of;

#[test]
fn defaults(rt: HostRuntime) {
    let options = Options::default();
    assert!(rt; options.cmp.id() == "leveldb.BytewiseComparator");
    assert!(rt; options.filter_policy.name() == "leveldb.BuiltinBloomFilter2");
    assert!(rt; options.create_if_missing && options.reuse_logs && options.reuse_manifest);
    assert!(rt; !options.error_if_exists && !options.paranoid_checks && options.compressor == 0);
    let sizes = sizes_of(&options);
    assert!(rt; sizes == [4_194_304, 1024, 2_097_152, 4_194_304, 4096, 16]);
    let is_set = [0, 1].map(|id| options.compressor_list.is_set(id));
    assert!(rt; is_set == [true, false]);
}

fn sizes_of(options: &Options<DefaultCmp, BloomPolicy>) -> [usize; 6] {
    [
        options.write_buffer_size,
        options.max_open_files,
        options.max_file_size,
        options.block_cache_capacity_bytes,
        options.block_size,
        options.block_restart_interval,
    ]
}

/// Default options with these sizes and this compressor.
fn chosen(sizes: &[usize; 6], compressor: u8) -> Options<DefaultCmp, BloomPolicy> {
    let mut options = Options::default();
    options.write_buffer_size = sizes[0];
    options.max_open_files = sizes[1];
    options.max_file_size = sizes[2];
    options.block_cache_capacity_bytes = sizes[3];
    options.block_size = sizes[4];
    options.block_restart_interval = sizes[5];
    options.compressor = compressor;
    options
}

const MOST: usize = 1 << 30;

/// Sizes in the order of `sizes_of`, a compressor, and the code: the limits and what is past them.
const LIMITS: [([usize; 6], u8, StatusCode); 17] = [
    ([1, 11, 1, 1, 1, 1], 0, OK),
    ([MOST, MOST, MOST, MOST, MOST, MOST], 0, OK),
    ([0, 11, 1, 1, 1, 1], 0, InvalidArgument),
    ([1, 10, 1, 1, 1, 1], 0, InvalidArgument),
    ([1, 11, 0, 1, 1, 1], 0, InvalidArgument),
    ([1, 11, 1, 4095, 4096, 1], 0, InvalidArgument),
    ([1, 11, 1, 0, 0, 1], 0, InvalidArgument),
    ([1, 11, 1, 1, 1, 0], 0, InvalidArgument),
    ([MOST + 1, 11, 1, 1, 1, 1], 0, InvalidArgument),
    ([1, MOST + 1, 1, 1, 1, 1], 0, InvalidArgument),
    ([1, 11, MOST + 1, 1, 1, 1], 0, InvalidArgument),
    ([1, 11, 1, MOST + 1, 1, 1], 0, InvalidArgument),
    ([1, 11, 1, MOST + 1, MOST + 1, 1], 0, InvalidArgument),
    ([1, 11, 1, 1, 1, MOST + 1], 0, InvalidArgument),
    ([1, 11, 1, 1, 1, usize::MAX], 1, InvalidArgument),
    ([1, 11, 1, 1, 1, 1], 1, NotSupported),
    ([1, 11, 1, 1, 1, 1], 255, NotSupported),
];

/// The index of the first choice with another code, if there is one.
fn first_other(alloc: Global) -> Option<usize> {
    for (at, (sizes, compressor, code)) in LIMITS.iter().enumerate() {
        if code_of(&chosen(sizes, *compressor).check(alloc)) != *code {
            return Some(at);
        }
    }
    None
}

#[test]
fn limits(rt: HostRuntime) {
    let other = first_other(rt.alloc());
    assert!(rt; other == None, "choice {other:?}");
    assert!(rt; Options::default().check(rt.alloc()).is_ok());
}

/// Whether the sizes are those of the default, and the disk that comes with them is empty.
fn are_fresh(disk: &mut MemEnv, options: &Options<DefaultCmp, BloomPolicy>) -> Result<bool> {
    Ok(sizes_of(options) == sizes_of(&Options::default()) && !disk.exists("a")?)
}

#[test]
fn options_in_memory(rt: HostRuntime) -> Result<()> {
    let (mut disk, options) = in_memory(rt.alloc());
    assert!(rt; are_fresh(&mut disk, &options)?);
    Ok(())
}

#[test]
fn options_for_tests(rt: HostRuntime) -> Result<()> {
    let (mut disk, options) = for_test(rt.alloc());
    assert!(rt; are_fresh(&mut disk, &options)?);
    Ok(())
}

//! How full the levels of a store get while it is written to: keys in several orders, short and long values, small and large memtables.
use super::stores::{DefaultOptions, STORE, opened};
use leveldb_base::cmp::DefaultCmp;
use leveldb_base::error::Result;
use leveldb_env::env::Env;
use leveldb_env::mem_env::MemEnv;
use leveldb_env::options::Options;
use leveldb_version_set::version_set::VersionSet;
use rand_core::{Rng, SeedableRng};
use rand_xoshiro::Xoshiro256PlusPlus;
use std::alloc::Global;
use std::process::Abort;

/// After so many puts the levels are looked at, or after a twentieth of all.
const SAMPLED: u64 = 10_000;

/// In which order keys come.
#[derive(Clone, Copy, Debug, PartialEq)]
pub enum Order {
    Random,
    Rising,
    Falling,
    /// Of each ten puts nine are of one key in a hundred.
    Skewed,
    /// Of one key in ten, so that most puts overwrite.
    Few,
    /// At random, and each second one deletes.
    Deleting,
}

/// What is put.
#[derive(Clone, Copy, Debug)]
pub struct Load {
    pub order: Order,
    pub puts: u64,
    pub value: usize,
    pub buffer: usize,
}

/// The key of the nth put, and whether it is deleted.
fn key_of(rng: &mut Xoshiro256PlusPlus, load: Load, nth: u64) -> (u64, bool) {
    let drawn = rng.next_u64();
    let any = drawn % load.puts;
    match load.order {
        Order::Random => (any, false),
        Order::Rising => (nth, false),
        Order::Falling => (load.puts - nth, false),
        Order::Skewed if drawn >> 32 & 15 < 14 => (any / 100, false),
        Order::Skewed => (any, false),
        Order::Few => (any / 10, false),
        Order::Deleting => (any, drawn >> 40 & 1 == 1),
    }
}

/// Sixteen digits.
fn digits_of(number: u64) -> [u8; 16] {
    let mut digits = [b'0'; 16];
    let mut rest = number;
    for place in digits.iter_mut().rev() {
        *place = b'0' + (rest % 10) as u8;
        rest /= 10;
    }
    digits
}

/// What a level is to have: four files, or bytes.
fn limit_of(level: usize) -> u64 {
    match level {
        0 => 4,
        1 => 10 << 20,
        2 => 100 << 20,
        3 => 1000 << 20,
        _ => 10_000 << 20,
    }
}

/// The greatest load of levels 0 to 4 over its limit, in percent, and its level.
fn fullest(alloc: Global, env: &mut MemEnv) -> Result<(u64, usize)> {
    let mut options: DefaultOptions = Options::default();
    options.reuse_logs = false;
    options.reuse_manifest = false;
    let mut set = VersionSet::new(alloc, STORE, &DefaultCmp)?;
    let _ = set.recover(env, &options)?;
    let mut loads = [0; 7];
    for (level, file) in set.files() {
        loads[*level % 7] += if *level == 0 { 1 } else { file.size as u64 };
    }
    let mut most = (0, 0);
    for level in 0..5 {
        let percent = loads[level] * 100 / limit_of(level);
        if percent > most.0 {
            most = (percent, level);
        }
    }
    Ok(most)
}

/// What that may be: to level 1 comes at once what four memtables had, and some more comes meanwhile.
pub fn most_of(load: Load) -> u64 {
    125 + 400 * load.buffer as u64 / limit_of(1)
}

/// The greatest such load after each ten thousand puts.
pub fn fullest_of(alloc: Global, load: Load) -> Result<(u64, usize)> {
    let mut env = MemEnv::new(alloc);
    let mut options = Options::default();
    options.write_buffer_size = load.buffer;
    let mut engine = opened(alloc, &mut env, options)?;
    let mut rng = Xoshiro256PlusPlus::seed_from_u64(load.puts);
    let value = vec![in alloc; b'v'; load.value]?;
    let mut most = (0, 0);
    let every = SAMPLED.min(1 + load.puts / 20);
    for nth in 0..load.puts {
        let (key, deletes) = key_of(&mut rng, load, nth);
        let key = digits_of(key);
        if deletes {
            engine.delete(&mut env, &key)?;
        } else {
            engine.put(&mut env, &key, value.as_slice())?;
        }
        if nth % every == 0 {
            let now = fullest(alloc, &mut env)?;
            if now.0 > most.0 {
                most = now;
            }
        }
    }
    engine.abandon(&mut env)?;
    Ok(most)
}

/// No level of a small store gets much past its limit.
#[test]
fn of_a_small_store(rt: HostRuntime) -> Result<()> {
    let load = Load {
        order: Order::Random,
        puts: 20_000,
        value: 1000,
        buffer: 1 << 18,
    };
    let most = fullest_of(rt.alloc(), load)?;
    assert!(rt; most.0 > 0 && most.0 <= most_of(load), "{most:?}");
    Ok(())
}

//! Keys and values, always the same ones: from a generator with a fixed seed, as in LevelDB's
//! benchmarks.
ghost use Rattle.std.specs.Prelude.{◌≡◌, ◌+◌, ◌^◌, ◌<◌, ◌≤◌, length, vec_len, IfOk};

use leveldb_base::error::Result;
use rand_core::{Rng, SeedableRng};
use rand_xoshiro::Xoshiro256PlusPlus;
use std::alloc::Global;

// The seed that LevelDB's benchmarks have.
const SEED: u64 = 301;

// How many random bytes the values are cut from.
const BYTES: usize = 1 << 20;

/// The key of a number: sixteen decimal digits.
pub fn key_of(number: u64) -> [u8; 16] {
    let mut key = [b'0'; 16];
    let mut rest = number;
    for i in 0..16usize {
        key[15 - i] = b'0' + (rest % 10) as u8;
        rest /= 10;
    }
    key
}

/// A key that no number has, after that of this number and before the next one's.
pub fn missing_key_of(number: u64) -> [u8; 17] {
    let mut key = [b'.'; 17];
    key[..16].copy_from_slice(&key_of(number));
    key
}

/// Numbers below a limit: one after another, from the first again after the last, or at random.
#[derive(Drop)]
pub struct Numbers {
    below: u64,
    next: u64,
    random: Option<Xoshiro256PlusPlus>,
    pub ghost inside: { next < below },
}

impl Numbers {
    /// 0, 1, 2 ..
    pub fn rising(below: u64) -> Numbers
        requires { 0 < below }
        ensures { result.below ≡ below }
    {
        Numbers {
            below,
            next: 0,
            random: None,
        }
    }

    /// In an order that is always the same.
    pub fn random(below: u64) -> Numbers
        requires { 0 < below }
        ensures { result.below ≡ below }
    {
        Numbers {
            below,
            next: 0,
            random: Some(Xoshiro256PlusPlus::seed_from_u64(SEED)),
        }
    }

    /// The next number.
    #[inline]
    pub fn next_number(&mut self) -> u64
        ensures value { result < self.old.below }
        ensures same { self.new.below ≡ self.old.below }
    {
        if let Some(generator) = &mut self.random {
            return generator.next_u64() % self.below;
        }
        let number = self.next;
        self.next = if number + 1 < self.below {
            number + 1
        } else {
            0
        };
        number
    }
}

/// Values of random bytes, of one size: a number has always the same value.
#[derive(Drop)]
pub struct Values {
    bytes: Vec<u8>,
    size: usize,
    pub ghost full: { vec_len bytes ≡ 1048576 },
    pub ghost fits: { size ≤ 1048576 },
}

impl Values {
    /// Values of this size.
    pub fn new(alloc: Global, size: usize) -> Result<Values>
        requires { size ≤ 1048576 }
        ensures { IfOk result (λ values. values.size ≡ size) }
    {
        let mut bytes = Vec::new(alloc);
        bytes.resize(BYTES, 0)?;
        Xoshiro256PlusPlus::seed_from_u64(SEED).fill_bytes(&mut bytes);
        Ok(Values { bytes, size })
    }

    /// The value of a number.
    #[inline]
    pub fn value_of(&self, number: u64) -> &[u8]
        ensures { length result.now ≡ self.now.size }
    {
        let starts = BYTES - self.size + 1;
        let start = (number as usize).wrapping_mul(self.size) % starts;
        &self.bytes[start..start + self.size]
    }
}

//! Bytes at random and changed ones, beside the slow program.
use super::texts::{encoded, half_text, random_text, read_as_slowly};
use leveldb_base::error::Result;
use std::alloc::Global;
use std::process::Abort;
use support::Random;

// A length, and elements at random: tags that are likely to fit, and small offsets.
fn likely_elements(alloc: Global, random: &mut Random) -> Result<Vec<u8>> {
    let mut stored = Vec::new(alloc);
    stored.push(random.below(100) as u8)?;
    for _ in 0..random.below(8) {
        let kind = random.below(4);
        let upper = if kind == 0 {
            random.below(6)
        } else {
            random.below(64)
        };
        stored.push((4 * upper + kind) as u8)?;
        if kind == 0 {
            let text = random_text(alloc, random, upper as usize + 1, 256)?;
            stored.extend_from_slice(&text)?;
        } else {
            let width = [0, 1, 2, 4][kind as usize % 4];
            for i in 0..width {
                let byte = if i == 0 { random.below(12) } else { 0 };
                stored.push(byte as u8)?;
            }
        }
    }
    Ok(stored)
}

// Changes some bytes, or takes some from the end.
fn change(random: &mut Random, stored: &mut Vec<u8>) {
    for _ in 0..1 + random.below(3) {
        let length = stored.len();
        if length == 0 {
            return;
        }
        let place = random.below(length as u64) as usize;
        match random.below(4) {
            0 => stored.truncate(place),
            1 => stored[place] ^= 1 << random.below(8) as u8,
            2 => stored[place] = random.below(256) as u8,
            _ => stored[place] = stored[place].wrapping_add(1),
        }
    }
}

// Some bytes: at random, of elements that are likely to fit, or of a text that is stored, changed.
fn bytes_to_read(alloc: Global, random: &mut Random) -> Result<Vec<u8>> {
    match random.below(3) {
        0 => {
            let length = random.below(24) as usize;
            random_text(alloc, random, length, 256)
        }
        1 => likely_elements(alloc, random),
        _ => {
            let length = random.below(200) as usize;
            let run = 1 + random.below(20) as usize;
            let text = half_text(alloc, random, length, run)?;
            let mut stored = encoded(alloc, &text)?;
            change(random, &mut stored);
            Ok(stored)
        }
    }
}

/// Reads so many bytes at random and changed ones as the slow program does. Returns how many of
/// them are texts.
pub fn read_beside_the_slow_program(
    rt: &impl Abort,
    alloc: Global,
    seed: u64,
    count: u32,
) -> Result<u32> {
    let mut random = Random(seed);
    let mut texts = 0u32;
    for round in 0..count {
        let bytes = bytes_to_read(alloc, &mut random)?;
        let is_text = read_as_slowly(alloc, &bytes)?;
        assert!(rt; is_text.is_some(), "{round}: {bytes:?}");
        if is_text == Some(true) {
            texts += 1;
        }
    }
    Ok(texts)
}

#[test]
fn beside_the_slow_program(rt: HostRuntime) -> Result<()> {
    let texts = read_beside_the_slow_program(&rt, rt.alloc(), 7, 20_000)?;
    assert!(rt; (1000..19_000).contains(&texts), "{texts}");
    Ok(())
}

//! Texts to store, and questions to what Snappy makes of them.
use super::slow::{slow_decoded, states_too_long};
use leveldb_base::error::{Result, StatusCode};
use leveldb_env::compressor::Compressor;
use leveldb_snappy::Snappy;
use std::alloc::Global;
use support::{Random, answered};

/// A text of so many bytes, each below `bytes`, at random.
pub fn random_text(
    alloc: Global,
    random: &mut Random,
    length: usize,
    bytes: u64,
) -> Result<Vec<u8>> {
    let mut text = Vec::with_capacity(alloc, length)?;
    for _ in 0..length {
        text.push(random.below(bytes) as u8)?;
    }
    Ok(text)
}

/// A text of so many bytes, half of which stand in it before: runs of `run` bytes at random, each
/// twice.
pub fn half_text(alloc: Global, random: &mut Random, length: usize, run: usize) -> Result<Vec<u8>> {
    let mut text = Vec::with_capacity(alloc, length + 2 * run)?;
    while text.len() < length {
        let fresh = random_text(alloc, random, run.max(1), 256)?;
        text.extend_from_slice(&fresh)?;
        text.extend_from_slice(&fresh)?;
    }
    text.truncate(length);
    Ok(text)
}

/// A text that repeats these bytes.
pub fn repeating_text(alloc: Global, bytes: &[u8], length: usize) -> Result<Vec<u8>> {
    let mut text = Vec::with_capacity(alloc, length)?;
    for i in 0..length {
        text.push(bytes[i % bytes.len().max(1)])?;
    }
    Ok(text)
}

/// What a text is stored as.
pub fn encoded(alloc: Global, text: &[u8]) -> Result<Vec<u8>> {
    Snappy::compressed(alloc, text)
}

/// Whether a text is read again, also by the slow program, and what it is stored as has at most the
/// length that Snappy allows.
pub fn is_read_again(alloc: Global, text: &[u8]) -> Result<bool> {
    let stored = encoded(alloc, text)?;
    let short = stored.len() <= 32 + text.len() + text.len() / 6;
    let slow = slow_decoded(alloc, &stored)?;
    let read = Snappy.decode(alloc, stored)?;
    Ok(short && read.as_slice() == text && slow.is_some_and(|slow| slow.as_slice() == text))
}

// The code of bytes that make no text.
fn code_of_none(bytes: &[u8]) -> StatusCode {
    if states_too_long(bytes) {
        StatusCode::NotSupported
    } else {
        StatusCode::Corruption
    }
}

/// Whether bytes are read as a text, where the slow program reads them so, too; none where it reads
/// them otherwise.
pub fn read_as_slowly(alloc: Global, bytes: &[u8]) -> Result<Option<bool>> {
    let slow = slow_decoded(alloc, bytes)?;
    let read = answered(Snappy.decode(alloc, bytes.to_vec(alloc)?))?;
    Ok(match (read, slow) {
        (Ok(read), Some(slow)) if read.as_slice() == slow.as_slice() => Some(true),
        (Err(status), None) if status.code == code_of_none(bytes) => Some(false),
        _ => None,
    })
}

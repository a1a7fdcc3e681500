//! Compressors.
use leveldb_base::error::{Result, StatusCode, err};
use leveldb_env::compressor::{Compressor, CompressorId};
use std::alloc::Global;

/// Adds 1 modulo 256 to each byte.
#[derive(Clone, Copy)]
pub struct Raised;

impl CompressorId for Raised {
    ghost ID = { ? };

    const ID: u8 = 7;
}

impl Compressor for Raised {
    ghost coding = { ? };

    fn encode(&self, alloc: Global, block: Vec<u8>) -> Result<Vec<u8>> {
        let mut stored = Vec::new(alloc);
        for byte in &block {
            stored.push(byte.wrapping_add(1))?;
        }
        Ok(stored)
    }

    fn decode(&self, alloc: Global, stored: Vec<u8>) -> Result<Vec<u8>> {
        let mut block = Vec::new(alloc);
        for byte in &stored {
            block.push(byte.wrapping_add(255))?;
        }
        Ok(block)
    }
}

/// Fails for each block, with a code of its own.
#[derive(Clone, Copy)]
pub struct Refusing;

impl Compressor for Refusing {
    ghost coding = { ? };

    fn encode(&self, alloc: Global, _block: Vec<u8>) -> Result<Vec<u8>> {
        err(alloc, StatusCode::CompressionError, "too dense")
    }

    fn decode(&self, alloc: Global, _stored: Vec<u8>) -> Result<Vec<u8>> {
        err(alloc, StatusCode::CompressionError, "too dense")
    }
}

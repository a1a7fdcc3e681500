//! Files that are made for a test, and what is printed of them.
use leveldb_base::error::Result;
use leveldb_env::compressor::CompressorList;
use leveldb_env::env::Env;
use leveldb_env::env::whole_files::write_file;
use leveldb_env::mem_env::MemEnv;
use leveldb_inspect::util_main;
use leveldb_mem::log::LogWriter;
use leveldb_mem::write_batch::WriteBatch;
use std::alloc::Global;

/// What the program printed, on both outputs, and its status.
#[derive(Drop)]
pub struct Printed {
    pub out: Vec<u8>,
    pub err: Vec<u8>,
    pub status: u8,
}

impl Printed {
    /// Whether this text was printed, with this status, and nothing else.
    pub fn is(&self, text: &[u8], status: u8) -> bool {
        self.out.as_slice() == text && self.err.is_empty() && self.status == status
    }
}

/// Runs the program with these words.
pub fn run<E: Env>(alloc: Global, env: &mut E, words: &[&str]) -> Result<Printed> {
    run_with(alloc, env, &CompressorList::default(), words)
}

/// Runs the program with these compressors and words.
pub fn run_with<E: Env>(
    alloc: Global,
    env: &mut E,
    compressors: &CompressorList,
    words: &[&str],
) -> Result<Printed> {
    let mut owned = Vec::new(alloc);
    for word in words {
        owned.push(String::from_str(alloc, word)?)?;
    }
    let mut out = Vec::new(alloc);
    let mut err = Vec::new(alloc);
    let status = util_main(alloc, env, compressors, &owned, &mut out, &mut err);
    Ok(Printed { out, err, status })
}

/// Whether the program prints this text for these words, with this status and nothing else.
pub fn prints<E: Env>(
    alloc: Global,
    env: &mut E,
    words: &[&str],
    text: &[u8],
    status: u8,
) -> Result<bool> {
    Ok(run(alloc, env, words)?.is(text, status))
}

/// Puts a file into an environment.
pub fn put(alloc: Global, env: &mut MemEnv, path: &str, bytes: &[u8]) -> Result<()> {
    write_file(alloc, env, path, bytes)?;
    Ok(())
}

/// An environment that has one file alone.
pub fn with_file(alloc: Global, path: &str, bytes: &[u8]) -> Result<MemEnv> {
    let mut env = MemEnv::new(alloc);
    put(alloc, &mut env, path, bytes)?;
    Ok(env)
}

/// A log of these records.
pub fn log_of(alloc: Global, records: &[&[u8]]) -> Result<Vec<u8>> {
    let mut writer = LogWriter::new(alloc, Vec::new(alloc));
    for record in records {
        writer.add_record(record)?;
    }
    Ok(writer.sink)
}

/// A batch of one put.
pub fn put_batch(alloc: Global, number: u64, key: &[u8], value: &[u8]) -> Result<Vec<u8>> {
    let mut batch = WriteBatch::new(alloc)?;
    batch.put(key, value)?;
    Ok(batch.encode(number))
}

//! Synced writes into a store, each of which is told once it is Ok.

use leveldb_base::error::Result;
use leveldb_env::env::Env;
use leveldb_env::options::Options;
use rusty_leveldb::{DB, WriteBatch};

/// Writes numbered keys for ever, from the first on that the store lacks, and prints each number
/// once its write is Ok. After a few writes they become a table.
pub fn write_on<E: Env>(rt: &(impl Print + AllocGlobal), env: &mut E, name: &str) -> Result<()> {
    let mut options = Options::default();
    options.write_buffer_size = 1000;
    let mut db = DB::open(rt.alloc(), name, env, options)?;
    for count in 0..1_000_000_000u32 {
        let key = format!(in rt.alloc(); "{count:09}")?;
        if db.get(key.as_bytes())?.is_none() {
            let mut batch = WriteBatch::new(rt.alloc())?;
            batch.put(key.as_bytes(), b"1")?;
            db.write(batch, true)?;
            rt.println(&key)?;
        }
    }
    db.abandon()
}

/// Writes four numbered keys, each synced, into a store that is opened for them, whatever fails,
/// and prints each number once its write is Ok. In every third opening the manifest is made anew,
/// and in every other one each write but the first makes a table.
fn write_four<E: Env>(
    rt: &(impl Print + AllocGlobal),
    env: &mut E,
    name: &str,
    opening: u32,
) -> Result<()> {
    let mut options = Options::default();
    options.reuse_manifest = opening % 3 > 0;
    if opening % 2 > 0 {
        options.write_buffer_size = 1;
    }
    let mut db = DB::open(rt.alloc(), name, env, options)?;
    for count in 0..4 {
        let key = format!(in rt.alloc(); "{opening:04}{count}")?;
        let mut batch = WriteBatch::new(rt.alloc())?;
        batch.put(key.as_bytes(), b"1")?;
        match db.write(batch, true) {
            Ok(()) => rt.println(&key)?,
            Err(status) => {
                let code = status.code;
                rt.println(format_args!("refused {code}"))?;
            }
        }
    }
    let closed = db.close();
    db.abandon()?;
    closed
}

/// Does so six times, whatever fails.
pub fn open_six_times<E: Env>(
    rt: &(impl Print + AllocGlobal),
    env: &mut E,
    name: &str,
) -> Result<()> {
    for opening in 0..6 {
        if let Err(status) = write_four(rt, env, name, opening) {
            let code = status.code;
            rt.println(format_args!("refused {code}"))?;
        }
    }
    Ok(())
}

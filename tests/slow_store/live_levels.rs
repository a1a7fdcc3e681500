//! Which levels a store's live files are in, as the version set says.
use leveldb_base::cmp::DefaultCmp;
use leveldb_base::error::Result;
use leveldb_env::env::Env;
use leveldb_env::options::Options;
use leveldb_version_set::version_set::VersionSet;
use std::alloc::Global;

/// The levels of the live files of a store's manifest. No file changes.
pub fn levels_of<E: Env>(alloc: Global, env: &mut E, store: &str) -> Result<String> {
    let mut options = Options::default();
    options.reuse_logs = false;
    options.reuse_manifest = false;
    let mut set = VersionSet::new(alloc, store, &DefaultCmp)?;
    let _ = set.recover(env, &options)?;
    set.current_summary()
}

/// Whether the live files of a store's manifest are in these levels. No file changes.
pub fn has_levels<E: Env>(alloc: Global, env: &mut E, store: &str, wanted: &str) -> Result<bool> {
    Ok(levels_of(alloc, env, store)?.as_str() == wanted)
}

//! A version set beside its device.
use leveldb_base::cmp::DefaultCmp;
use leveldb_base::error::Result;
use leveldb_env::env::Env;
use leveldb_env::options::Options;
use leveldb_version::version_edit::VersionEdit;
use leveldb_version_set::version_set::{VersionSet, make_store};
use std::alloc::Global;

/// A device, and a version set for the store `db` on it.
pub struct Stored<E: Env> {
    pub env: E,
    pub set: VersionSet<E, DefaultCmp>,
}

impl<E: Env + Drop> Drop for Stored<E> {
    // One call for whoever drops one, in place of one for each part of it.
    fn drop(self) {
        let Stored { env, set } = self;
        drop(env);
        drop(set);
    }
}

impl<E: Env + Drop> Stored<E> {
    /// A set of no files, whose manifest isn't made.
    pub fn new(alloc: Global, env: E) -> Result<Stored<E>> {
        let set = VersionSet::new(alloc, "db", &DefaultCmp)?;
        Ok(Stored { env, set })
    }

    /// A set of no files, beside a new store that it hasn't read.
    pub fn beside_a_store(alloc: Global, env: E) -> Result<Stored<E>> {
        let mut stored = Stored::new(alloc, env)?;
        make_store(alloc, &mut stored.env, "db", &DefaultCmp)?;
        Ok(stored)
    }

    pub fn log(&mut self, edit: VersionEdit) -> Result<()> {
        self.set.log_and_apply(&mut self.env, edit)
    }

    /// Logs an edit that changes no file.
    pub fn log_none(&mut self, alloc: Global) -> Result<()> {
        self.log(VersionEdit::new(alloc))
    }

    /// Whether the set makes a new manifest, with the default options.
    pub fn recover(&mut self) -> Result<bool> {
        self.set.recover(&mut self.env, &Options::default())
    }
}

//! Environments that are another one, but for what a rule says of its calls.

use leveldb_base::error::{Result, Status, StatusCode};
use leveldb_env::env::Env;
use std::alloc::Global;

/// What is different about the calls of an environment.
pub trait Rule {
    /// Is asked before each call that could change a file or a lock. Where it fails, so does the
    /// call, and nothing is done.
    fn may_change(&mut self) -> Result<()> {
        Ok(())
    }

    /// Is told of each append, and whether it is one to a log or a manifest.
    fn count_append(&mut self, _is_to_log: bool) {}

    /// How many bytes a read gives at most, of those that are asked for, by its offset or by how
    /// many are asked for.
    fn most(&self, _number: usize, asked: usize) -> usize {
        asked
    }
}

/// An environment, and the rule that its calls follow.
#[derive(Drop)]
pub struct Ruled<E, R> {
    pub env: E,
    pub rule: R,
}

/// A file, and whether it is a log or a manifest.
#[derive(Drop)]
pub struct RuledFile<F> {
    file: F,
    is_log: bool,
}

fn named<F>(file: F, name: &str) -> RuledFile<F> {
    let is_log = name.ends_with(".log") || name.contains("MANIFEST");
    RuledFile { file, is_log }
}

// ---- the rules

/// Refuses each call that could change a file or a lock.
#[derive(Drop)]
pub struct RefusesChanges {
    /// How many calls were refused.
    pub refused: usize,
}

impl Rule for RefusesChanges {
    fn may_change(&mut self) -> Result<()> {
        self.refused += 1;
        Err(Status {
            code: StatusCode::PermissionDenied,
            err: None,
        })
    }
}

/// An environment that can only be read.
pub type OnlyReads<E> = Ruled<E, RefusesChanges>;

impl<E> Ruled<E, RefusesChanges> {
    /// This environment, of which no call was refused yet.
    pub fn of(env: E) -> OnlyReads<E> {
        let rule = RefusesChanges { refused: 0 };
        Ruled { env, rule }
    }
}

/// Gives few bytes a read.
#[derive(Drop)]
pub struct GivesFew {
    // how many bytes a read gives at most, if that is the same for all reads
    at_most: Option<usize>,
}

impl Rule for GivesFew {
    fn most(&self, number: usize, asked: usize) -> usize {
        self.at_most.unwrap_or(1 + number % 9).min(asked)
    }
}

/// An environment that gives few bytes a read.
pub type ShortReads<E> = Ruled<E, GivesFew>;

impl<E> Ruled<E, GivesFew> {
    /// Gives 1 to 9 bytes a read, by its offset or by how many are asked for.
    pub fn new(env: E) -> ShortReads<E> {
        let rule = GivesFew { at_most: None };
        Ruled { env, rule }
    }

    /// Gives `most` bytes a read at most.
    pub fn at_most(most: usize, env: E) -> ShortReads<E> {
        let rule = GivesFew {
            at_most: Some(most),
        };
        Ruled { env, rule }
    }
}

/// Counts the appends to logs and manifests that began.
#[derive(Drop)]
pub struct CountsAppends {
    pub begun: usize,
}

impl Rule for CountsAppends {
    fn count_append(&mut self, is_to_log: bool) {
        self.begun = self.begun.saturating_add(usize::from(is_to_log));
    }
}

/// An environment whose appends to logs and manifests are counted: none of them leaves a store as
/// it was.
pub type CountedAppends<E> = Ruled<E, CountsAppends>;

impl<E> Ruled<E, CountsAppends> {
    /// This environment, to which nothing was appended yet.
    pub fn over(env: E) -> CountedAppends<E> {
        let rule = CountsAppends { begun: 0 };
        Ruled { env, rule }
    }
}

// ---- the calls

impl<E: Env, R: Rule> Env for Ruled<E, R> {
    type File = RuledFile<E::File>;

    ghost models_disk = { ? };

    ghost models_moments = { ? };

    ghost observed = { ? };

    ghost failures = { ? };

    ghost name_of = { ? };

    ghost offset_of = { ? };

    ghost counts = { ? };

    ghost only_now = { ? };

    ghost counts_now = { ? };

    ghost moments_need_disk = { ? };

    fn open_sequential_file(&mut self, name: &str) -> Result<RuledFile<E::File>> {
        Ok(named(self.env.open_sequential_file(name)?, name))
    }

    fn open_random_access_file(&mut self, name: &str) -> Result<RuledFile<E::File>> {
        Ok(named(self.env.open_random_access_file(name)?, name))
    }

    fn open_writable_file(&mut self, name: &str) -> Result<RuledFile<E::File>> {
        self.rule.may_change()?;
        Ok(named(self.env.open_writable_file(name)?, name))
    }

    fn open_appendable_file(&mut self, name: &str) -> Result<RuledFile<E::File>> {
        self.rule.may_change()?;
        Ok(named(self.env.open_appendable_file(name)?, name))
    }

    fn read(&mut self, file: &mut RuledFile<E::File>, target: &mut [u8]) -> Result<usize> {
        let most = self.rule.most(target.len(), target.len());
        self.env.read(&mut file.file, &mut target[..most])
    }

    fn read_at(
        &mut self,
        file: &RuledFile<E::File>,
        offset: usize,
        target: &mut [u8],
    ) -> Result<usize> {
        let most = self.rule.most(offset, target.len());
        self.env.read_at(&file.file, offset, &mut target[..most])
    }

    fn append(&mut self, file: &mut RuledFile<E::File>, bytes: &[u8]) -> Result<()> {
        self.rule.may_change()?;
        self.rule.count_append(file.is_log);
        self.env.append(&mut file.file, bytes)
    }

    fn sync(&mut self, file: &mut RuledFile<E::File>) -> Result<()> {
        self.rule.may_change()?;
        self.env.sync(&mut file.file)
    }

    fn exists(&mut self, name: &str) -> Result<bool> {
        self.env.exists(name)
    }

    fn children(&mut self, alloc: Global, folder: &str) -> Result<Vec<String>> {
        self.env.children(alloc, folder)
    }

    fn size_of(&mut self, name: &str) -> Result<usize> {
        self.env.size_of(name)
    }

    fn delete(&mut self, name: &str) -> Result<()> {
        self.rule.may_change()?;
        self.env.delete(name)
    }

    fn mkdir(&mut self, folder: &str) -> Result<()> {
        self.rule.may_change()?;
        self.env.mkdir(folder)
    }

    fn rmdir(&mut self, folder: &str) -> Result<()> {
        self.rule.may_change()?;
        self.env.rmdir(folder)
    }

    fn rename(&mut self, from: &str, to: &str) -> Result<()> {
        self.rule.may_change()?;
        self.env.rename(from, to)
    }

    fn lock(&mut self, name: &str) -> Result<()> {
        self.rule.may_change()?;
        self.env.lock(name)
    }

    fn unlock(&mut self, name: &str) -> Result<()> {
        self.rule.may_change()?;
        self.env.unlock(name)
    }

    fn micros(&mut self) -> Result<u64> {
        self.env.micros()
    }
}

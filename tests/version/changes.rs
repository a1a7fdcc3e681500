//! Versions and version sets after many edits at random, beside a plain list of the live files.

use super::stored::Stored;
use bytes::Bytes;
use leveldb_base::cmp::DefaultCmp;
use leveldb_base::error::{Result, StatusCode};
use leveldb_base::key_types::LookupKey;
use leveldb_base::types::{FileMetaData, FileNum};
use leveldb_env::env::Env;
use leveldb_env::mem_env::MemEnv;
use leveldb_env::options::Options;
use leveldb_version::version::{GetStats, Version};
use leveldb_version::version_edit::VersionEdit;
use leveldb_version_set::version_set::{VersionSet, manifest_file_name};
use std::alloc::Global;
use std::process::Abort;
use support::{Random, failed_with};

/// The files of the edits are in so many levels, and have so many numbers.
const LEVELS: u64 = 4;

const NUMBERS: u64 = 12;

fn level_of(random: &mut Random) -> usize {
    random.below(LEVELS) as usize
}

/// A live file: its level and number, and the seeks that it has left.
#[derive(Clone, Copy, Debug, PartialEq)]
struct Live {
    level: usize,
    num: FileNum,
    seeks: usize,
}

/// The live files, in the order in which they were added, and the one that is chosen by its seeks.
#[derive(Drop)]
struct LiveList {
    files: Vec<Live>,
    chosen: Option<(usize, FileNum)>,
}

impl LiveList {
    fn new(alloc: Global) -> LiveList {
        LiveList {
            files: Vec::new(alloc),
            chosen: None,
        }
    }

    fn remove(&mut self, level: usize, num: FileNum) {
        self.files
            .retain(|file| !(file.level == level && file.num == num));
    }

    /// Deletes the files that the edit deletes, and then adds those that it adds.
    fn apply(&mut self, edit: &VersionEdit) -> Result<()> {
        for file in &edit.deleted {
            self.remove(file.0, file.1);
            if self.chosen == Some(*file) {
                self.chosen = None;
            }
        }
        for file in edit.new_files.as_slice() {
            self.remove(file.0, file.1.num);
            self.files.push(Live {
                level: file.0,
                num: file.1.num,
                seeks: first_seeks(file.1.size),
            })?;
        }
        Ok(())
    }

    /// The same files as a set has them that is recovered: each has its first seeks, none is
    /// chosen.
    fn renew(&mut self) {
        for file in self.files.iter_mut() {
            file.seeks = first_seeks(size_of(file.num));
        }
        self.chosen = None;
    }

    /// Charges a file with a seek, and returns whether it is chosen by that.
    fn charge(&mut self, level: usize, num: FileNum) -> bool {
        for file in self.files.iter_mut() {
            if file.level == level && file.num == num {
                if self.chosen.is_none() && file.seeks <= 1 {
                    self.chosen = Some((level, num));
                    return true;
                }
                file.seeks = file.seeks.saturating_sub(1);
            }
        }
        false
    }
}

/// The seeks that a file of this size has at first.
fn first_seeks(size: usize) -> usize {
    (size / 16_384).max(100)
}

fn size_of(num: FileNum) -> usize {
    200_000 * num.min(NUMBERS) as usize
}

/// A key of the only entry of a file: its number backwards, so that keys are in another order than
/// numbers.
fn key_of(alloc: Global, num: FileNum) -> Result<Bytes> {
    let key = LookupKey::new(alloc, &[(NUMBERS - num.min(NUMBERS)) as u8], 30)?;
    Ok(Bytes::copy_from_slice(alloc, key.internal_key())?)
}

fn file_of(alloc: Global, num: FileNum) -> Result<FileMetaData> {
    Ok(FileMetaData {
        allowed_seeks: 0,
        num,
        size: size_of(num),
        smallest: key_of(alloc, num)?,
        largest: key_of(alloc, num)?,
    })
}

/// An edit that deletes and adds up to two files each.
fn random_edit(alloc: Global, random: &mut Random) -> Result<VersionEdit> {
    let mut edit = VersionEdit::new(alloc);
    for _ in 0..random.below(3) {
        edit.delete_file(level_of(random), random.below(NUMBERS))?;
    }
    for _ in 0..random.below(3) {
        let num = random.below(NUMBERS);
        edit.add_file(level_of(random), file_of(alloc, num)?)?;
    }
    Ok(edit)
}

/// Whether the list has this file.
fn has_file(live: &LiveList, file: &(usize, FileMetaData)) -> bool {
    live.files.iter().any(|other| {
        other.level == file.0 && other.num == file.1.num && other.seeks == file.1.allowed_seeks
    })
}

/// Whether two files of a version are in order: in level 0 by number, which rises, and else by key,
/// as which it falls.
fn in_order(a: &(usize, FileMetaData), b: &(usize, FileMetaData)) -> bool {
    if a.0 == 0 {
        a.1.num < b.1.num
    } else {
        a.1.num > b.1.num
    }
}

/// Asserts that the version has the files of the list in order, with their seeks, and its choice.
fn assert_same(rt: &impl Abort, version: &Version<DefaultCmp>, live: &LiveList) {
    let mut count = 0;
    for level in 0..7 {
        let files = version.files(level);
        assert!(rt;
            files
                .iter()
                .all(|file| file.0 == level && has_file(live, file))
        );
        assert!(rt; files.windows(2).all(|pair| in_order(&pair[0], &pair[1])));
        count += files.len();
    }
    assert!(rt; count == live.files.len());
    assert!(rt; version.file_to_compact() == live.chosen);
}

/// Charges a file that may be live so often, and asserts that the list chooses the same one.
fn charge_often(
    rt: &impl Abort,
    random: &mut Random,
    live: &mut LiveList,
    mut charge: impl FnMut(GetStats) -> bool,
) {
    let (level, num) = (level_of(random), random.below(NUMBERS));
    let stats = GetStats {
        file: Some((level, num)),
    };
    for _ in 0..random.below(120) {
        assert!(rt; charge(stats) == live.charge(level, num));
    }
}

/// The version after each of three thousand edits has the files of the plain list, which lose
/// seeks on the way.
#[test]
fn versions_after_edits(rt: HostRuntime) -> Result<()> {
    let mut random = Random(56);
    let mut live = LiveList::new(rt.alloc());
    let mut version = Version::new(rt.alloc(), DefaultCmp);
    let mut chosen = 0;
    for _ in 0..3000 {
        let edit = random_edit(rt.alloc(), &mut random)?;
        version = version.with_edit(rt.alloc(), &edit)?;
        live.apply(&edit)?;
        if random.below(8) == 0 {
            charge_often(
                &rt,
                &mut random,
                &mut live,
                |stats| version.update_stats(stats),
            );
        }
        assert_same(&rt, &version, &live);
        if live.chosen.is_some() {
            chosen += 1;
        }
    }
    assert!(rt; chosen > 0 && chosen < 3000);
    Ok(())
}

/// A set beside its device.
type StoredSet = Stored<MemEnv>;

/// Asserts that the set lists the files of the list, in the order in which they were added, and
/// that its version has them by levels.
fn assert_lists(rt: &impl Abort, set: &VersionSet<MemEnv, DefaultCmp>, live: &LiveList) {
    let files = set.files();
    assert!(rt; files.len() == live.files.len());
    for (file, other) in files.iter().zip(live.files.as_slice()) {
        assert!(rt; file.0 == other.level && file.1.num == other.num);
    }
    assert_same(rt, set.current(), live);
}

/// A set and its version have the files of the plain list after each of three thousand edits, which
/// lose seeks on the way, and so has one that is recovered from its manifest then.
#[test]
fn sets_after_edits(rt: HostRuntime) -> Result<()> {
    let mut random = Random(7);
    let mut live = LiveList::new(rt.alloc());
    let mut stored = StoredSet::beside_a_store(rt.alloc(), MemEnv::new(rt.alloc()))?;
    stored.recover()?;
    stored.set.mark_file_number_used(NUMBERS)?;
    let mut chosen = 0;
    for _ in 0..3000 {
        let edit = random_edit(rt.alloc(), &mut random)?;
        live.apply(&edit)?;
        stored.log(edit)?;
        if random.below(8) == 0 {
            charge_often(
                &rt,
                &mut random,
                &mut live,
                |stats| stored.set.update_stats(stats),
            );
        }
        assert_lists(&rt, &stored.set, &live);
        if live.chosen.is_some() {
            chosen += 1;
        }
    }
    assert!(rt; chosen > 0 && chosen < 3000);
    let mut again = VersionSet::new(rt.alloc(), "db", &DefaultCmp)?;
    again.recover(&mut stored.env, &Options::default())?;
    live.renew();
    assert_lists(&rt, &again, &live);
    Ok(())
}

/// An edit that isn't logged leaves the set and its version as they were, and so does a broken set
/// with each that comes after it.
#[test]
fn refused_edits_leave_the_version(rt: HostRuntime) -> Result<()> {
    let mut live = LiveList::new(rt.alloc());
    let mut stored = StoredSet::beside_a_store(rt.alloc(), MemEnv::new(rt.alloc()))?;
    stored.recover()?;
    let mut edit = VersionEdit::new(rt.alloc());
    edit.add_file(1, file_of(rt.alloc(), 3)?)?;
    live.apply(&edit)?;
    stored.log(edit)?;
    let mut unfit = VersionEdit::new(rt.alloc());
    unfit.add_file(7, file_of(rt.alloc(), 4)?)?;
    assert!(rt; failed_with(stored.log(unfit), StatusCode::InvalidArgument)?);
    assert_lists(&rt, &stored.set, &live);
    let manifest = manifest_file_name(rt.alloc(), "db", stored.set.manifest_num())?;
    stored.env.delete(&manifest)?;
    for code in [StatusCode::Corruption, StatusCode::IOError] {
        let mut edit = VersionEdit::new(rt.alloc());
        edit.delete_file(1, 3)?;
        assert!(rt; failed_with(stored.log(edit), code)?);
        assert_lists(&rt, &stored.set, &live);
    }
    assert!(rt; stored.set.is_broken());
    Ok(())
}

/// A version that takes the place of another of the same files is the set's from then on.
#[test]
fn versions_are_added(rt: HostRuntime) -> Result<()> {
    let mut live = LiveList::new(rt.alloc());
    let mut stored = StoredSet::beside_a_store(rt.alloc(), MemEnv::new(rt.alloc()))?;
    stored.recover()?;
    let mut edit = VersionEdit::new(rt.alloc());
    edit.add_file(2, file_of(rt.alloc(), 5)?)?;
    live.apply(&edit)?;
    stored.log(edit)?;
    let stats = GetStats { file: Some((2, 5)) };
    while !stored.set.update_stats(stats) {}
    assert!(rt; stored.set.current().file_to_compact() == Some((2, 5)));
    let version = Version::of_files(rt.alloc(), DefaultCmp, stored.set.files())?;
    stored.set.add_version(version);
    assert_lists(&rt, &stored.set, &live);
    Ok(())
}

//! Samples of random walks, beside a plain list of all entries that says what each move reads, and
//! which file is compacted for it.

use super::samples::Periods;
use super::stores::{DefaultEngine, STORE, buffered, opened};
use leveldb_base::cmp::DefaultCmp;
use leveldb_base::error::Result;
use leveldb_base::types::FileNum;
use leveldb_env::mem_env::MemEnv;
use leveldb_env::options::Options;
use leveldb_version_set::version_set::VersionSet;
use rusty_leveldb::Snapshot;
use std::alloc::Global;
use std::process::Abort;
use support::Random;

/// How many keys there are, each of one byte.
const KEYS: u8 = 12;

/// An entry of the store: its key, its number, and the length of its value, or none of a deletion.
#[derive(Clone, Copy, Debug)]
struct Entry {
    key: u8,
    sequence: u64,
    value: Option<usize>,
}

/// Where an iterator is: at the pair of an entry, which it came to by a move forward or back.
#[derive(Clone, Copy, Debug)]
enum Place {
    None,
    Forward(usize),
    Back(usize),
}

/// All entries, in the order of keys and the newest of each first, and what is read of them at a
/// number.
#[derive(Drop)]
struct Reader<'a> {
    entries: &'a [Entry],
    sequence: u64,
    place: Place,
    // How many bytes the last move looked at.
    bytes: u64,
}

impl Reader<'_> {
    fn look(&mut self, index: usize) -> Entry {
        let entry = self.entries[index];
        self.bytes += 9 + entry.value.unwrap_or(0) as u64;
        entry
    }

    /// The first entry of the key or of one after it.
    fn first_of(&self, key: u8) -> usize {
        let found = self.entries.iter().position(|entry| entry.key >= key);
        found.unwrap_or(self.entries.len())
    }

    /// To the first entry from this one on that shows its key, but for those of a key.
    fn forward(&mut self, from: usize, skipped: Option<u8>) {
        let mut skipped = skipped;
        self.place = Place::None;
        for index in from..self.entries.len() {
            let entry = self.look(index);
            if entry.sequence > self.sequence || skipped == Some(entry.key) {
                continue;
            }
            if entry.value.is_some() {
                self.place = Place::Forward(index);
                return;
            }
            skipped = Some(entry.key);
        }
    }

    /// To the last key before this entry that is shown.
    fn back(&mut self, before: usize) {
        let mut taken: Option<usize> = None;
        for index in (0..before).rev() {
            let entry = self.look(index);
            if entry.sequence > self.sequence {
                continue;
            }
            if taken.is_some_and(|other| self.entries[other].key != entry.key) {
                break;
            }
            taken = if entry.value.is_some() {
                Some(index)
            } else {
                None
            };
        }
        self.place = match taken {
            None => Place::None,
            Some(index) => Place::Back(index),
        };
    }

    /// The key of the pair that it is at.
    fn key(&self) -> Option<u8> {
        match self.place {
            Place::None => None,
            Place::Forward(index) | Place::Back(index) => Some(self.entries[index].key),
        }
    }

    fn advance(&mut self) {
        self.bytes = 0;
        match self.place {
            Place::None => self.forward(0, None),
            Place::Forward(index) => self.forward(index + 1, Some(self.entries[index].key)),
            Place::Back(index) => {
                let key = self.entries[index].key;
                self.forward(self.first_of(key), Some(key));
            }
        }
    }

    fn prev(&mut self) {
        self.bytes = 0;
        if let Some(key) = self.key() {
            self.back(self.first_of(key));
        }
    }

    fn seek(&mut self, key: u8) {
        self.bytes = 0;
        let mut from = self.first_of(key);
        while from < self.entries.len()
            && self.entries[from].key == key
            && self.entries[from].sequence > self.sequence
        {
            from += 1;
        }
        self.forward(from, None);
    }
}

/// A file: its level, its number, its first and last key, and how many seeks it may take.
#[derive(Clone, Copy, Debug, PartialEq)]
struct File {
    level: usize,
    number: FileNum,
    first: u8,
    last: u8,
    seeks: u64,
}

/// The live files, in the order in which a look-up tries them.
fn live_files(alloc: Global, env: &mut MemEnv) -> Result<Vec<File>> {
    let mut options = Options::default();
    options.reuse_logs = false;
    options.reuse_manifest = false;
    let mut set = VersionSet::new(alloc, STORE, &DefaultCmp)?;
    let _ = set.recover(env, &options)?;
    let mut files: Vec<File> = Vec::new(alloc);
    for level in 0..7 {
        let version = set.current();
        for (_, file) in version.files(level) {
            let file = File {
                level,
                number: file.num,
                first: file.smallest[0],
                last: file.largest[0],
                seeks: (file.size as u64 / 16384).max(100),
            };
            files.push(file)?;
        }
    }
    files.sort_by_key(|file| (
        file.level,
        if file.level == 0 {
            u64::MAX - file.number
        } else {
            0
        },
    ))?;
    Ok(files)
}

/// A store beside a list of its entries, its files, and when samples are taken.
#[derive(Drop)]
struct Trial {
    alloc: Global,
    env: MemEnv,
    engine: DefaultEngine<MemEnv>,
    entries: Vec<Entry>,
    periods: Periods,
    files: Vec<File>,
    charges: Vec<(usize, FileNum)>,
    held: Vec<Snapshot>,
}

impl Trial {
    /// Sixty random entries, none of which goes, in tables of several levels.
    fn new(alloc: Global, random: &mut Random) -> Result<Trial> {
        let mut env = MemEnv::new(alloc);
        let engine = opened(alloc, &mut env, buffered(1 << 20))?;
        let mut trial = Trial {
            alloc,
            env,
            engine,
            entries: Vec::new(alloc),
            periods: Periods::new(),
            files: Vec::new(alloc),
            charges: Vec::new(alloc),
            held: Vec::new(alloc),
        };
        for sequence in 1..=60 {
            trial.write(random, sequence)?;
            if sequence % 20 == 1 {
                trial.held.push(trial.engine.get_snapshot()?)?;
            }
        }
        trial
            .entries
            .sort_by_key(|entry| (entry.key, u64::MAX - entry.sequence))?;
        trial.compact()?;
        trial.files = live_files(alloc, &mut trial.env)?;
        Ok(trial)
    }

    /// Puts a random value of a random key, or deletes it.
    fn write(&mut self, random: &mut Random, sequence: u64) -> Result<()> {
        let key = random.below(KEYS as u64) as u8;
        let length = 100_000 + random.below(300_000) as usize;
        let value = if random.below(6) == 0 {
            None
        } else {
            Some(length)
        };
        match value {
            None => self.engine.delete(&mut self.env, &[key])?,
            Some(length) => {
                let text = vec![in self.alloc; b'v'; length]?;
                self.engine.put(&mut self.env, &[key], &text)?;
            }
        }
        self.entries
            .push(Entry {
                key,
                sequence,
                value,
            })
            .map_err(From::from)
    }

    /// Compacts a range without keys: what is in memory becomes a table, and the file for which
    /// reads ask is compacted.
    fn compact(&mut self) -> Result<()> {
        self.engine.compact_range(&mut self.env, &[200], &[201])
    }

    /// The file that a sample of the key charges.
    fn charged(&self, key: u8) -> Option<(usize, FileNum)> {
        let mut with_key = self
            .files
            .iter()
            .filter(|file| file.first <= key && key <= file.last);
        let first = with_key.next()?;
        with_key.next()?;
        Some((first.level, first.number))
    }

    /// Makes random moves of an iterator, now or at a snapshot.
    fn walk(&mut self, rt: &impl Abort, random: &mut Random) -> Result<()> {
        let which = random.below(self.held.len() as u64 + 1) as usize;
        let at = self.held.get(which).copied();
        let sequence = at.map_or(60, |snapshot| snapshot.sequence());
        let mut keys: Vec<u8> = Vec::new(self.alloc);
        let mut it = match at {
            None => self.engine.new_iter(&mut self.env)?,
            Some(snapshot) => self.engine.new_iter_at(&mut self.env, snapshot)?,
        };
        let mut reader = Reader {
            entries: self.entries.as_slice(),
            sequence,
            place: Place::None,
            bytes: 0,
        };
        for _ in 0..20 + random.below(20) {
            match random.below(10) {
                0 => {
                    let key = random.below(KEYS as u64) as u8;
                    it.seek(&[key])?;
                    reader.seek(key);
                }
                1 => {
                    it.seek_to_first()?;
                    reader.place = Place::None;
                    reader.advance();
                }
                2 => {
                    it.seek_to_last()?;
                    reader.bytes = 0;
                    reader.back(reader.entries.len());
                }
                3 => {
                    it.reset();
                    reader.place = Place::None;
                    reader.bytes = 0;
                }
                4..=6 => {
                    it.prev()?;
                    reader.prev();
                }
                _ => {
                    it.advance()?;
                    reader.advance();
                }
            }
            let key = it.current().map(|(key, _)| key[0]);
            assert!(rt; key == reader.key());
            if self.periods.end_after(reader.bytes)
                && let Some(key) = key
            {
                keys.push(key)?;
            }
        }
        drop(it);
        for key in keys {
            if let Some(file) = self.charged(key) {
                self.charges.push(file)?;
            }
        }
        Ok(())
    }

    /// The file that the charges choose for a compaction, once they are taken off the files' seeks.
    fn chosen(&mut self) -> Option<(usize, FileNum)> {
        let mut chosen = None;
        for charge in self.charges.iter() {
            for file in self.files.iter_mut() {
                if (file.level, file.number) != *charge {
                    continue;
                }
                if chosen.is_none() && file.seeks <= 1 {
                    chosen = Some(*charge);
                } else {
                    file.seeks = file.seeks.saturating_sub(1);
                }
            }
        }
        self.charges.clear();
        chosen
    }

    /// Compacts what is asked for, which is to be the file that was charged most. Returns whether
    /// there was one.
    fn compacts_charged(&mut self, rt: &impl Abort) -> Result<bool> {
        let chosen = self.chosen();
        self.compact()?;
        let files = live_files(self.alloc, &mut self.env)?;
        let same = files.len() == self.files.len()
            && (0..files.len()).all(|index| files[index].number == self.files[index].number
                && files[index].level == self.files[index].level);
        assert!(rt; same == chosen.is_none());
        if let Some((level, number)) = chosen {
            assert!(rt;
                files
                    .iter()
                    .all(|file| file.level != level || file.number != number)
            );
            self.keep_seeks(files);
        }
        Ok(chosen.is_some())
    }

    /// These are the files now; of those that stayed as many seeks are left as before.
    fn keep_seeks(&mut self, files: Vec<File>) {
        let mut files = files;
        for file in files.iter_mut() {
            let stays = |old: &&File| old.level == file.level && old.number == file.number;
            if let Some(old) = self.files.iter().find(stays) {
                file.seeks = old.seeks;
            }
        }
        self.files = files;
    }
}

/// Over random walks forward and back, now and at snapshots, each compaction that reads ask for
/// takes the file that the samples charged a hundred times first, and none is done before.
#[test]
fn walks_beside_a_list(rt: HostRuntime) -> Result<()> {
    let mut random = Random(7);
    let mut trial = Trial::new(rt.alloc(), &mut random)?;
    assert!(rt; trial.files.len() > 5);
    let mut compactions = 0;
    let mut still = 0;
    for _ in 0..400 {
        trial.walk(&rt, &mut random)?;
        if random.below(4) == 0 {
            if trial.compacts_charged(&rt)? {
                compactions += 1;
            } else {
                still += 1;
            }
        }
        if compactions == 2 && still > 10 {
            break;
        }
    }
    assert!(rt;
        compactions == 2 && still > 10,
        "{compactions} compactions, {still} without"
    );
    trial.engine.abandon(&mut trial.env)
}

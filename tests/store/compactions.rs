//! Compactions of a range: what is found before and after, now and at snapshots, which files are left, and what a failure leaves.
use super::stores::{
    DefaultEngine, DefaultOptions, STORE, count_tables, files_of, has_files, one_byte, opened,
};
use leveldb_base::cmp::DefaultCmp;
use leveldb_base::error::{Result, StatusCode};
use leveldb_disks::mem_env::{Pick, RecordEnv};
use leveldb_env::env::Env;
use leveldb_env::options::Options;
use rusty_leveldb::Snapshot;
use rusty_leveldb::shell::{Move, Step};
use slow_store::{has_levels, read_store};
use std::alloc::Global;
use std::process::Abort;
use support::{answered, damage_file, failed_with};

/// What is done to an open store, or asked of it.
#[derive(Clone, Copy)]
enum Act {
    Put(&'static str, &'static str),
    Delete(&'static str),
    Snap,
    /// Releases the snapshot of this index.
    Release(usize),
    Compact(&'static str, &'static str),
    /// A compaction of all fails with this code.
    CompactFails(StatusCode),
    /// A put fails with this code.
    PutFails(StatusCode),
    /// A look-up of this key at the snapshot of this index fails with this code.
    FindFailsAt(usize, &'static str, StatusCode),
    /// These keys of one byte, looked up in this order, have these bytes, `-` for none.
    Finds(&'static str, &'static str),
    /// So they have at the snapshot of this index.
    FindsAt(usize, &'static str, &'static str),
    /// The nth call of the device from now on fails, its change made or not.
    Fail(u64, bool),
    /// The byte of this file at this offset is one higher.
    Damage(&'static str, usize),
    /// The names of the store's folder and the sizes of its files are these.
    HasFiles(&'static str),
    /// The store's tables are in these levels.
    HasLevels(&'static str),
    /// Gives back the lock, and opens the store again.
    Reopen,
}

/// A store that is open, on its device, and the snapshots that were taken.
#[derive(Drop)]
struct Trial {
    alloc: Global,
    env: RecordEnv,
    engine: DefaultEngine<RecordEnv>,
    taken: Vec<Snapshot>,
    settings: Settings,
}

/// The size of the memtable, and that of a table.
#[derive(Clone, Copy)]
struct Settings {
    buffer: usize,
    file: usize,
}

const DEFAULTS: Settings = Settings {
    buffer: 4 << 20,
    file: 2 << 20,
};

fn options_of(settings: Settings) -> DefaultOptions {
    let mut options = Options::default();
    options.write_buffer_size = settings.buffer;
    options.max_file_size = settings.file;
    options
}

impl Trial {
    fn new(alloc: Global, settings: Settings) -> Result<Trial> {
        let mut env = RecordEnv::new(alloc);
        let engine = opened(alloc, &mut env, options_of(settings))?;
        Ok(Trial {
            alloc,
            env,
            engine,
            taken: Vec::new(alloc),
            settings,
        })
    }

    /// The one byte of the key's value, now or at a snapshot, `-` for none, `?` for another value.
    fn byte_of(&mut self, at: Option<usize>, key: &[u8]) -> Result<u8> {
        let found = match at {
            None => self.engine.get(&mut self.env, key)?,
            Some(index) => self.engine.get_at(&mut self.env, self.taken[index], key)?,
        };
        Ok(one_byte(found))
    }

    fn finds(&mut self, at: Option<usize>, keys: &str, wanted: &str) -> Result<bool> {
        for (key, byte) in keys.as_bytes().iter().zip(wanted.as_bytes()) {
            if self.byte_of(at, &[*key])? != *byte {
                return Ok(false);
            }
        }
        Ok(keys.len() == wanted.len())
    }

    fn compact(&mut self, from: &str, to: &str) -> Result<()> {
        self.engine
            .compact_range(&mut self.env, from.as_bytes(), to.as_bytes())
    }

    fn reopen(&mut self) -> Result<()> {
        self.env.unlock("db/LOCK")?;
        self.taken.clear();
        let options = options_of(self.settings);
        self.engine = DefaultEngine::open(self.alloc, STORE, &mut self.env, options)?;
        Ok(())
    }

    fn change(&mut self, act: &Act) -> Result<()> {
        match act {
            Act::Put(key, value) => {
                self.engine
                    .put(&mut self.env, key.as_bytes(), value.as_bytes())
            }
            Act::Delete(key) => self.engine.delete(&mut self.env, key.as_bytes()),
            Act::Snap => {
                self.taken.push(self.engine.get_snapshot()?)?;
                Ok(())
            }
            Act::Release(index) => self.engine.release_snapshot(self.taken[*index]),
            Act::Compact(from, to) => self.compact(from, to),
            Act::Damage(name, at) => damage_file(self.alloc, &mut self.env, name, *at),
            Act::Reopen => self.reopen(),
            Act::Fail(nth, done) => {
                self.env.fail(*nth, *done);
                Ok(())
            }
            _ => Ok(()),
        }
    }

    /// Does what is to be done, and returns whether what is asked is so.
    fn is_right(&mut self, act: &Act) -> Result<bool> {
        match act {
            Act::CompactFails(code) => failed_with(self.compact("", ""), *code),
            Act::PutFails(code) => failed_with(self.engine.put(&mut self.env, b"x", b"1"), *code),
            Act::FindFailsAt(at, key, code) => {
                failed_with(self.byte_of(Some(*at), key.as_bytes()), *code)
            }
            Act::Finds(keys, wanted) => self.finds(None, keys, wanted),
            Act::FindsAt(at, keys, wanted) => self.finds(Some(*at), keys, wanted),
            Act::HasFiles(wanted) => has_files(self.alloc, &mut self.env, wanted),
            Act::HasLevels(wanted) => has_levels(self.alloc, &mut self.env, STORE, wanted),
            _ => {
                self.change(act)?;
                Ok(true)
            }
        }
    }

    fn play(&mut self, rt: &impl Abort, acts: &[Act]) -> Result<()> {
        for (at, act) in acts.iter().enumerate() {
            let is_right = self.is_right(act)?;
            if !is_right {
                let files = files_of(self.alloc, &mut self.env)?;
                assert!(rt; is_right, "row {at}: {files}");
            }
        }
        Ok(())
    }

    /// Whether the files are a store by its definition.
    fn is_whole(&mut self) -> Result<bool> {
        let read = read_store(self.alloc, &mut self.env, &DefaultCmp, STORE);
        Ok(answered(read)?.is_ok())
    }
}

/// Does and asks all this of a store that is new.
fn play(rt: &impl Abort, alloc: Global, settings: Settings, acts: &[Act]) -> Result<()> {
    let mut trial = Trial::new(alloc, settings)?;
    trial.play(rt, acts)?;
    assert!(rt; trial.is_whole()?);
    trial.engine.abandon(&mut trial.env)
}

const HELD: &[Act] = &[
    Act::Put("k", "1"),
    Act::Snap,
    Act::Put("k", "2"),
    Act::Compact("", ""),
    Act::FindsAt(0, "k", "1"),
    Act::Finds("k", "2"),
    Act::Compact("", ""),
    Act::FindsAt(0, "k", "1"),
    Act::Finds("k", "2"),
    Act::Release(0),
    Act::FindFailsAt(0, "k", StatusCode::InvalidArgument),
    Act::Compact("", ""),
    Act::Finds("k", "2"),
];

/// A snapshot keeps its view, in whatever level its entries are.
#[test]
fn a_view_that_is_held(rt: HostRuntime) -> Result<()> {
    play(&rt, rt.alloc(), DEFAULTS, HELD)
}

const ALL_GO: &[Act] = &[
    Act::Put("k", "1"),
    Act::Compact("", ""),
    Act::HasLevels("level 2: 1 files, 177 bytes ([(5, 177)]); "),
    Act::Delete("k"),
    Act::Compact("", ""),
    Act::Finds("k", "-"),
    Act::HasLevels(""),
    Act::HasFiles("000006.log:0 CURRENT:16 LOCK:0 MANIFEST-000001:154 "),
    // The compaction that left nothing gave no number to a table.
    Act::Put("k", "2"),
    Act::Compact("", ""),
    Act::HasLevels("level 2: 1 files, 177 bytes ([(9, 177)]); "),
    Act::Delete("k"),
    Act::Compact("", ""),
    Act::Reopen,
    Act::Finds("k", "-"),
];

/// A deletion goes with what it deletes, and so no table is left.
#[test]
fn a_compaction_that_leaves_nothing(rt: HostRuntime) -> Result<()> {
    play(&rt, rt.alloc(), DEFAULTS, ALL_GO)
}

const DOWN: &[Act] = &[
    Act::Put("k", "1"),
    Act::Compact("", ""),
    Act::HasLevels("level 2: 1 files, 177 bytes ([(5, 177)]); "),
    Act::Compact("", ""),
    Act::HasLevels("level 3: 1 files, 177 bytes ([(6, 177)]); "),
    Act::Compact("j", "l"),
    Act::HasLevels("level 4: 1 files, 177 bytes ([(7, 177)]); "),
    // The range overlaps nothing.
    Act::Compact("l", ""),
    Act::Compact("", "j"),
    Act::Compact("l", "j"),
    Act::HasLevels("level 4: 1 files, 177 bytes ([(7, 177)]); "),
    Act::Compact("k", "k"),
    Act::HasLevels("level 5: 1 files, 177 bytes ([(8, 177)]); "),
    Act::Compact("k", ""),
    Act::HasLevels("level 6: 1 files, 177 bytes ([(9, 177)]); "),
    Act::Compact("", ""),
    Act::HasLevels("level 6: 1 files, 177 bytes ([(9, 177)]); "),
    Act::Finds("k", "1"),
    Act::Delete("k"),
    Act::Compact("", ""),
    Act::HasLevels(
        "level 2: 1 files, 176 bytes ([(11, 176)]); level 6: 1 files, 177 bytes ([(9, 177)]); ",
    ),
    Act::Finds("k", "-"),
    Act::Compact("", ""),
    Act::Compact("", ""),
    Act::Compact("", ""),
    Act::HasLevels(
        "level 5: 1 files, 176 bytes ([(14, 176)]); level 6: 1 files, 177 bytes ([(9, 177)]); ",
    ),
    Act::Finds("k", "-"),
    Act::Compact("", ""),
    Act::HasLevels(""),
    Act::Finds("k", "-"),
];

/// Tables go down level by level, and a deletion stays until it comes to the deepest level that has its key.
#[test]
fn tables_go_down(rt: HostRuntime) -> Result<()> {
    play(&rt, rt.alloc(), DEFAULTS, DOWN)
}

/// The first compaction of all leaves a table in level 2.
const SECOND_COMPACTION: &[Act] = &[
    Act::Put("k", "1"),
    Act::Snap,
    Act::Delete("k"),
    Act::Compact("", ""),
];

const BOTH_VIEWS: &[Act] = &[Act::FindsAt(0, "k", "1"), Act::Finds("k", "-")];

/// How many calls of the device the second compaction of all takes.
fn calls_of_second(rt: &impl Abort, alloc: Global) -> Result<u64> {
    let mut trial = Trial::new(alloc, DEFAULTS)?;
    trial.play(rt, SECOND_COMPACTION)?;
    trial.play(rt, BOTH_VIEWS)?;
    let before = trial.env.moment();
    trial.play(rt, &[Act::Compact("", "")])?;
    let calls = (trial.env.moment() - before) / 2;
    trial.play(rt, BOTH_VIEWS)?;
    trial.play(
        rt,
        &[Act::HasLevels("level 3: 1 files, 188 bytes ([(6, 188)]); ")],
    )?;
    trial.engine.abandon(&mut trial.env)?;
    Ok(calls)
}

/// The second compaction, of which the nth call of the device fails: both views stay. Where the store isn't broken, the next compaction goes on.
fn fail_in_second(rt: &impl Abort, alloc: Global, nth: u64, done: bool) -> Result<bool> {
    let mut trial = Trial::new(alloc, DEFAULTS)?;
    trial.play(rt, SECOND_COMPACTION)?;
    trial.play(rt, BOTH_VIEWS)?;
    trial.env.fail(nth, done);
    let has_failed = answered(trial.compact("", ""))?.is_err();
    trial.env.fail(0, false);
    trial.play(rt, BOTH_VIEWS)?;
    assert!(rt; trial.is_whole()?, "call {nth}");
    let is_broken = trial.engine.check_writable().is_err();
    if is_broken {
        trial.play(
            rt,
            &[
                Act::CompactFails(StatusCode::IOError),
                Act::PutFails(StatusCode::IOError),
            ],
        )?;
    } else {
        trial.play(rt, &[Act::Compact("", ""), Act::Compact("", "")])?;
    }
    trial.play(rt, BOTH_VIEWS)?;
    assert!(rt; trial.is_whole()?, "call {nth}");
    trial.play(rt, &[Act::Reopen, Act::Finds("k", "-")])?;
    assert!(rt; trial.is_whole()?, "call {nth}");
    trial.engine.abandon(&mut trial.env)?;
    Ok(has_failed)
}

#[test]
fn failures_of_a_second_compaction(rt: HostRuntime) -> Result<()> {
    let calls = calls_of_second(&rt, rt.alloc())?;
    let mut failed = 0;
    for nth in 1..=calls {
        for done in &[false, true] {
            failed += usize::from(fail_in_second(&rt, rt.alloc(), nth, *done)?);
        }
    }
    // All but the listing of the folder and the deletion of the input.
    assert!(rt;
        calls > 10 && failed as u64 == 2 * (calls - 2),
        "{failed} of {calls}"
    );
    Ok(())
}

/// The call of the device that is the sync of the manifest: the last but the listing of the folder and the deletion of the input.
#[test]
fn a_manifest_that_is_not_synced(rt: HostRuntime) -> Result<()> {
    let nth = calls_of_second(&rt, rt.alloc())? - 2;
    let mut trial = Trial::new(rt.alloc(), DEFAULTS)?;
    trial.play(&rt, SECOND_COMPACTION)?;
    trial.play(&rt, BOTH_VIEWS)?;
    trial.env.fail(nth, false);
    trial.play(
        &rt,
        &[
            Act::CompactFails(StatusCode::IOError),
            Act::PutFails(StatusCode::IOError),
            Act::FindsAt(0, "k", "1"),
            Act::Finds("k", "-"),
            // The input and the output are there.
            Act::HasFiles(
                "000004.log:0 000005.ldb:188 000006.ldb:188 CURRENT:16 LOCK:0 MANIFEST-000001:136 ",
            ),
            Act::CompactFails(StatusCode::IOError),
            Act::HasFiles(
                "000004.log:0 000005.ldb:188 000006.ldb:188 CURRENT:16 LOCK:0 MANIFEST-000001:136 ",
            ),
            Act::Reopen,
            Act::Finds("k", "-"),
        ],
    )?;
    assert!(rt; trial.is_whole()?);
    trial.engine.abandon(&mut trial.env)
}

/// Both a memtable and a table of one byte: each put makes a table of the one before, and each key has a table of its own.
const SMALL: Settings = Settings { buffer: 1, file: 1 };

fn put_letters(trial: &mut Trial, value: u8) -> Result<()> {
    for letter in b'a'..=b'z' {
        trial.engine.put(&mut trial.env, &[letter], &[value])?;
    }
    Ok(())
}

fn have_value(trial: &mut Trial, value: u8) -> Result<bool> {
    for letter in b'a'..=b'z' {
        if trial.byte_of(None, &[letter])? != value {
            return Ok(false);
        }
    }
    Ok(true)
}

/// Whether a walk from the first pair on is over each letter, with this value, and nothing more.
fn walks_over_letters(trial: &mut Trial, value: u8) -> Result<bool> {
    let mut moves = Vec::new(trial.alloc);
    moves.push(Move::First)?;
    for _ in b'a'..=b'z' {
        moves.push(Move::Next)?;
    }
    let mut led = Vec::new(trial.alloc);
    trial.engine.walk(&mut trial.env, None, &moves, &mut led)?;
    let is_at_end = matches!(led.pop(), Some(Step::Invalid));
    let are_letters = led.iter().zip(b'a'..=b'z').all(|(step, letter)| {
        matches!(step, Step::At(key, found) if key.as_slice() == [letter].as_slice() && found.as_slice() == [value].as_slice())
    });
    Ok(is_at_end && led.len() == 26 && are_letters)
}

/// How many tables are in the store's folder, and how many entries the store's files have.
fn tables_and_entries(trial: &mut Trial) -> Result<(usize, usize)> {
    let tables = count_tables(trial.alloc, &mut trial.env)?;
    let contents = read_store(trial.alloc, &mut trial.env, &DefaultCmp, STORE)?;
    Ok((tables, contents.map_or(0, |it| it.entries.len())))
}

#[test]
fn letters_put_twice(rt: HostRuntime) -> Result<()> {
    let mut trial = Trial::new(rt.alloc(), SMALL)?;
    put_letters(&mut trial, b'1')?;
    put_letters(&mut trial, b'2')?;
    trial.compact("", "")?;
    assert!(rt; have_value(&mut trial, b'2')? && walks_over_letters(&mut trial, b'2')?);
    let found = tables_and_entries(&mut trial)?;
    assert!(rt; found == (26, 26), "{found:?}");
    trial.play(&rt, &[Act::Reopen])?;
    assert!(rt; have_value(&mut trial, b'2')? && walks_over_letters(&mut trial, b'2')?);
    let found = tables_and_entries(&mut trial)?;
    assert!(rt; found == (26, 26), "{found:?}");
    trial.engine.abandon(&mut trial.env)
}

const IN_PARTS: &[Act] = &[
    Act::Put("a", "1"),
    Act::Put("b", "2"),
    Act::Put("c", "3"),
    Act::Put("a", "4"),
    Act::Put("c", "5"),
    // The last one is in the memtable.
    Act::HasLevels(
        "level 1: 1 files, 177 bytes ([(12, 177)]); level 2: 3 files, 531 bytes ([(6, 177), (8, 177), (10, 177)]); ",
    ),
    Act::Compact("b", "b"),
    // The table of c is new in level 1.
    Act::HasLevels(
        "level 1: 2 files, 354 bytes ([(12, 177), (14, 177)]); level 2: 2 files, 354 bytes ([(6, 177), (10, 177)]); \
        level 3: 1 files, 177 bytes ([(15, 177)]); ",
    ),
    Act::Compact("c", ""),
    Act::HasLevels(
        "level 1: 1 files, 177 bytes ([(12, 177)]); level 2: 1 files, 177 bytes ([(6, 177)]); \
        level 3: 2 files, 354 bytes ([(15, 177), (17, 177)]); ",
    ),
    Act::Compact("", "a"),
    Act::HasLevels("level 3: 3 files, 531 bytes ([(15, 177), (17, 177), (19, 177)]); "),
    Act::Finds("abc", "425"),
];

/// No file of levels 0 to 2 overlaps the range then, and the others stay.
#[test]
fn parts_of_the_keys(rt: HostRuntime) -> Result<()> {
    play(&rt, rt.alloc(), SMALL, IN_PARTS)
}

const DAMAGED: &[Act] = &[
    Act::Put("a", "1"),
    Act::Compact("", ""),
    Act::Put("b", "2"),
    Act::Compact("", ""),
    Act::Reopen,
    Act::Damage("000009.ldb", 3),
    Act::CompactFails(StatusCode::Corruption),
    Act::Finds("b", "2"),
    Act::Put("c", "3"),
    Act::CompactFails(StatusCode::Corruption),
    Act::Finds("bc", "23"),
    Act::Compact("b", ""),
    Act::Finds("bc", "23"),
];

/// A table that can't be read fails each compaction that takes it, and no other.
#[test]
fn a_damaged_table(rt: HostRuntime) -> Result<()> {
    let mut trial = Trial::new(rt.alloc(), SMALL)?;
    trial.play(&rt, DAMAGED)?;
    trial.engine.abandon(&mut trial.env)
}

/// A store that is closed makes no call of the device for it.
#[test]
fn a_closed_store(rt: HostRuntime) -> Result<()> {
    let mut trial = Trial::new(rt.alloc(), DEFAULTS)?;
    trial.engine.close(&mut trial.env)?;
    let before = trial.env.moment();
    trial.play(&rt, &[Act::CompactFails(StatusCode::InvalidArgument)])?;
    assert!(rt; trial.env.moment() == before);
    Ok(())
}

/// A crash that leaves nothing but what is durable, after a compaction of all: what wasn't durable before it is, as it is in tables.
#[test]
fn what_is_in_tables_is_durable(rt: HostRuntime) -> Result<()> {
    let alloc = rt.alloc();
    let mut trial = Trial::new(alloc, DEFAULTS)?;
    trial.play(&rt, &[Act::Put("a", "1"), Act::Compact("x", "y")])?;
    let none = Pick {
        tails: Vec::new(alloc),
        after: false,
    };
    trial.env = trial.env.disk_at(alloc, trial.env.moment(), &none)?;
    trial.env.lock("db/LOCK")?;
    trial.play(&rt, &[Act::Reopen, Act::Finds("a", "1")])?;
    trial.engine.abandon(&mut trial.env)
}

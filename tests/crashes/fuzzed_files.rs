//! Stores that look random, several of whose files are damaged at once in ways that look random,
//! some with right checksums over what is wrong. They are opened, read both ways, written,
//! compacted and opened again. Whatever the files hold, a call returns, and an error says damage; a
//! reading changes no file but as an opening may; where the slow reader reads a store, its map is
//! found; and where no checksum was made right, no pair is found but one that was put.
use super::damaged_files::{DefaultOptions, are_left, map_of, read_slowly};
use super::log_records::{log_of, records_of};
use super::replies::{has, refusal};
use super::steps::{Step, asked_of, commands_of, landings_of};
use super::twelve_keys::OVER_ALL;
use leveldb_base::cmp::DefaultCmp;
use leveldb_base::crc::{crc32, mask_crc};
use leveldb_base::error::{Result, Status, StatusCode};
use leveldb_env::mem_env::MemEnv;
use leveldb_env::options::Options;
use rusty_leveldb::shell::{Command, Item, Reply, Step as ShellStep, run};
use slow_history::{BorrowedPair, Entry, Move, is_walk};
use slow_store::Contents;
use std::alloc::Global;
use std::process::Abort;
use support::{File, Random, disk_of, files_on, is_free};

/// Keys are letters from a on, and an empty one.
const KEYS: u64 = 9;

/// A key and a value that was put for it.
type Put = (Vec<u8>, Vec<u8>);

/// Draws a store, its damage and what is asked of it.
#[derive(Drop)]
struct Fuzz {
    alloc: Global,
    random: Random,
    puts: Vec<Put>,
    /// What is asked of each store.
    asked: Vec<Step>,
}

/// What was done to a store, for who reads that a trial failed.
#[derive(Debug, Drop)]
struct Damage {
    /// What was changed.
    said: Vec<String>,
    /// Whether a checksum was made right over what was changed.
    is_forged: bool,
    /// Whether one of a table's blocks was.
    is_table_forged: bool,
}

/// How many stores were damaged, and how many of them the slow reader read, an opening failed on,
/// or a reply failed on.
#[derive(Clone, Copy, Debug)]
pub struct Fuzzed {
    pub stores: usize,
    pub read: usize,
    pub refused_openings: usize,
    pub refused_replies: usize,
}

// ---- a store

impl Fuzz {
    fn new(alloc: Global, seed: u64) -> Result<Fuzz> {
        Ok(Fuzz {
            alloc,
            random: Random(seed),
            puts: Vec::new(alloc),
            asked: asked_of(alloc, ASKED, &[OVER_ALL, DOWN])?,
        })
    }

    fn below(&mut self, bound: usize) -> usize {
        self.random.below(bound as u64) as usize
    }

    fn is_one_of(&mut self, bound: u64) -> bool {
        self.random.below(bound) == 0
    }

    fn key(&mut self) -> Result<Vec<u8>> {
        let mut key = Vec::new(self.alloc);
        let letter = self.random.below(KEYS) as u8;
        if letter > 0 {
            key.push(b'`' + letter)?;
        }
        Ok(key)
    }

    /// A value that no other put has.
    fn value(&mut self) -> Result<Vec<u8>> {
        let length = [0, 1, 30, 200][self.below(4)];
        let number = self.puts.len();
        let mut value = Vec::from_slice(
            self.alloc,
            format!(in self.alloc; "{number:03}")?.as_bytes(),
        )?;
        value.resize(3 + length, b'.')?;
        Ok(value)
    }

    fn put(&mut self) -> Result<Put> {
        let (key, value) = (self.key()?, self.value()?);
        self.puts.push((key.clone()?, value.clone()?))?;
        Ok((key, value))
    }

    fn write(&mut self) -> Result<Command> {
        let mut items = Vec::new(self.alloc);
        for _ in 0..self.below(4) {
            if self.is_one_of(3) {
                items.push(Item::Delete(self.key()?))?;
            } else {
                let (key, value) = self.put()?;
                items.push(Item::Put(key, value))?;
            }
        }
        let sync = self.is_one_of(3);
        Ok(Command::Write { sync, items })
    }

    fn command(&mut self) -> Result<Command> {
        Ok(match self.below(12) {
            0 => Command::Delete(self.key()?),
            1 | 2 => self.write()?,
            3 => Command::Compact(self.key()?, Vec::new(self.alloc)),
            _ => {
                let (key, value) = self.put()?;
                Command::Put(key, value)
            }
        })
    }

    fn commands(&mut self, most: usize) -> Result<Vec<Command>> {
        let mut commands = Vec::new(self.alloc);
        for _ in 0..self.below(most + 1) {
            commands.push(self.command()?)?;
        }
        Ok(commands)
    }

    fn options(&mut self) -> DefaultOptions {
        let mut options = Options::default();
        options.write_buffer_size = [1, 300, 2000, 4 << 20][self.below(4)];
        options.block_size = [1, 60, 4096][self.below(3)];
        options.block_restart_interval = [1, 2, 16][self.below(3)];
        options.max_file_size = [1, 400, 2 << 20][self.below(3)];
        options.reuse_logs = self.is_one_of(2);
        options.reuse_manifest = self.is_one_of(2);
        options
    }

    /// The files that some runs leave.
    fn store(&mut self, rt: &impl Abort) -> Result<Vec<File>> {
        let mut env = MemEnv::new(self.alloc);
        for _ in 0..=self.below(3) {
            let (options, commands) = (self.options(), self.commands(25)?);
            let mut replies = Vec::new(self.alloc);
            let ran = run(&mut env, "db", options, &commands, &mut replies);
            assert!(rt; ran.is_ok() && count_refused(&replies) == 0);
        }
        files_on(self.alloc, &mut env)
    }
}

fn count_refused(replies: &[Reply]) -> usize {
    replies
        .iter()
        .filter(|reply| refusal(reply).is_some())
        .count()
}

// ---- its damage

/// The ends of a table's blocks with their checksums, one after another from the front on. Of a
/// long table none.
fn block_ends(alloc: Global, table: &[u8]) -> Result<Vec<(usize, usize)>> {
    let mut ends = Vec::new(alloc);
    let mut start = 0;
    if table.len() > 3000 {
        return Ok(ends);
    }
    for end in 4..table.len() {
        if end >= start + 5 {
            let sum = mask_crc(crc32(&table[start..end - 4]));
            if &table[end - 4..end] == sum.to_le_bytes().as_slice() {
                ends.push((start, end))?;
                start = end;
            }
        }
    }
    Ok(ends)
}

impl Fuzz {
    /// Bytes that look random, so many of them.
    fn bytes(&mut self, length: usize) -> Result<Vec<u8>> {
        let mut bytes = Vec::new(self.alloc);
        for _ in 0..length {
            bytes.push(self.below(256) as u8)?;
        }
        Ok(bytes)
    }

    /// Changes some of the bytes, and says what was done: they are cut, or some are zeros, put in,
    /// repeated at the end, left out, or others.
    fn change_bytes(&mut self, bytes: &mut Vec<u8>) -> Result<String> {
        let (at, kind, length) = (self.below(bytes.len() + 1), self.below(7), self.below(20));
        let end = bytes.len().min(at + length);
        let old = Vec::from_slice(self.alloc, &bytes[end..])?;
        let between = Vec::from_slice(self.alloc, &bytes[at..end])?;
        match kind {
            3 => bytes.extend_from_slice(&between)?,
            _ => bytes.truncate(at),
        }
        match kind {
            1 => bytes.resize(end, 0)?,
            2 => {
                bytes.extend_from_slice(&self.bytes(length)?)?;
                bytes.extend_from_slice(&between)?;
            }
            5 | 6 => bytes.extend_from_slice(&self.bytes(end - at)?)?,
            _ => {}
        }
        if kind != 0 && kind != 3 {
            bytes.extend_from_slice(&old)?;
        }
        Ok(format!(in self.alloc; "change {kind} at {at} of {length}")?)
    }

    /// Changes a block of a table, and makes its checksum right. Returns whether there was a block.
    fn forge_table(&mut self, table: &mut Vec<u8>) -> Result<bool> {
        let ends = block_ends(self.alloc, table)?;
        if ends.is_empty() {
            return Ok(false);
        }
        let (start, end) = ends[self.below(ends.len())];
        for _ in 0..=self.below(3) {
            let at = start + self.below(end - 4 - start);
            table[at] = self.below(256) as u8;
        }
        let sum = mask_crc(crc32(&table[start..end - 4]));
        table[end - 4..end].copy_from_slice(&sum.to_le_bytes());
        Ok(true)
    }

    /// Changes a record of a log, leaves one out or repeats one, and frames all of them anew.
    /// Returns whether there was a record.
    fn forge_log(&mut self, log: &mut Vec<u8>) -> Result<bool> {
        let mut records = records_of(self.alloc, log)?;
        if records.is_empty() {
            return Ok(false);
        }
        let at = self.below(records.len());
        match self.below(6) {
            0 => {
                records.remove(at);
            }
            1 => {
                let copy = records[at].clone()?;
                let to = self.below(records.len());
                records.insert(to, copy)?;
            }
            _ => {
                self.change_bytes(&mut records[at])?;
            }
        }
        *log = log_of(self.alloc, &records)?;
        Ok(true)
    }

    fn forge(&mut self, file: &mut File) -> Result<bool> {
        if file.0.as_str().ends_with(".ldb") {
            return self.forge_table(&mut file.1);
        }
        let is_log = file.0.as_str().ends_with(".log") || file.0.as_str().starts_with("MANIFEST-");
        Ok(is_log && self.forge_log(&mut file.1)?)
    }

    /// A name that a file of a store might have.
    fn name(&mut self) -> Result<String> {
        let number = self.below(12);
        Ok(match self.below(4) {
            0 => format!(in self.alloc; "{number:06}.log")?,
            1 => format!(in self.alloc; "{number:06}.ldb")?,
            2 => format!(in self.alloc; "MANIFEST-{number:06}")?,
            _ => format!(in self.alloc; "{number:06}.dbtmp")?,
        })
    }

    /// Copies a file to another name. Returns that.
    fn copy_file(&mut self, files: &mut Vec<File>, at: usize) -> Result<String> {
        let (copy, name) = (files[at].1.clone()?, self.name()?);
        let said = format!(in self.alloc; "is copied to {name}")?;
        match files
            .iter()
            .position(|file| file.0.as_str() == name.as_str())
        {
            Some(there) => files[there].1 = copy,
            None => files.push((name, copy))?,
        }
        Ok(said)
    }

    /// Gives a file the bytes of another one.
    fn replace_file(&mut self, files: &mut Vec<File>, at: usize) -> Result<String> {
        let from = self.below(files.len());
        let copy = files[from].1.clone()?;
        files[at].1 = copy;
        Ok(format!(in self.alloc; "has the bytes of file {from}")?)
    }

    /// Does one thing to the files.
    fn damage_once(&mut self, files: &mut Vec<File>, damage: &mut Damage) -> Result<()> {
        let (at, kind) = (self.below(files.len()), self.below(12));
        let name = files[at].0.clone()?;
        let is_forged = kind > 7 && self.forge(&mut files[at])?;
        let what = if is_forged {
            damage.is_forged = true;
            damage.is_table_forged = damage.is_table_forged || name.as_str().ends_with(".ldb");
            String::from_str(self.alloc, "has a right checksum")?
        } else if kind == 0 {
            files.remove(at);
            String::from_str(self.alloc, "is taken away")?
        } else if kind == 1 {
            self.replace_file(files, at)?
        } else if kind == 2 {
            self.copy_file(files, at)?
        } else {
            self.change_bytes(&mut files[at].1)?
        };
        damage.said.push(format!(in self.alloc; "{name}: {what}")?)?;
        Ok(())
    }

    fn damage(&mut self, files: &mut Vec<File>) -> Result<Damage> {
        let mut damage = Damage {
            said: Vec::new(self.alloc),
            is_forged: false,
            is_table_forged: false,
        };
        for _ in 0..=self.below(3) {
            if !files.is_empty() {
                self.damage_once(files, &mut damage)?;
            }
        }
        Ok(damage)
    }
}

// ---- what is asked, and replied

/// Down over all pairs, past the first.
const DOWN: &[Move<'static>] = &[
    Move::Seek(b"h"),
    Move::Prev,
    Move::Prev,
    Move::Prev,
    Move::Prev,
    Move::Prev,
    Move::Prev,
    Move::Prev,
    Move::Prev,
    Move::Prev,
];

/// The keys that are asked for.
const ASKED: &[&str] = &["", "a", "b", "c", "d", "e", "f", "g", "h"];

/// Whether an error says damage: or that a comparator, a number or a compressor isn't one of the
/// store's, where a checksum was made right.
fn says_damage(status: &Status, is_forged: bool) -> bool {
    match status.code {
        StatusCode::Corruption | StatusCode::NotSupported => true,
        StatusCode::InvalidArgument => is_forged,
        _ => false,
    }
}

fn say_damage(replies: &[Reply], is_forged: bool) -> bool {
    replies.iter().all(|reply| match refusal(reply) {
        Some(status) => says_damage(status, is_forged),
        None => true,
    })
}

fn was_put(puts: &[Put], key: &[u8], value: &[u8]) -> bool {
    puts.iter()
        .any(|put| put.0.as_slice() == key && put.1.as_slice() == value)
}

fn are_steps_put(puts: &[Put], steps: &[ShellStep]) -> bool {
    steps.iter().all(|step| match step {
        ShellStep::At(key, value) => was_put(puts, key.as_slice(), value.as_slice()),
        _ => true,
    })
}

/// Whether each pair that is found was put.
fn are_put(puts: &[Put], commands: &[Command], replies: &[Reply]) -> bool {
    commands.iter().zip(replies).all(|(command, reply)| match (command, reply) {
        (Command::Get(key), Reply::Value(value)) => was_put(puts, key.as_slice(), value.as_slice()),
        (_, Reply::Walk(steps)) => are_steps_put(puts, steps),
        _ => true,
    })
}

/// Whether a look-up may find this where filters rule the key out of some tables: the value of an
/// entry of it, or none, if all of its entries are in tables.
fn may_find_past_filters(contents: &Contents, key: &str, reply: &Reply) -> bool {
    let is_of_key = |entry: &Entry| entry.key.as_slice() == key.as_bytes();
    let (tabled, logged) = contents.entries.split_at(contents.in_tables);
    !logged.iter().any(is_of_key)
        && match reply {
            Reply::Value(value) => tabled.iter().any(|entry| {
                is_of_key(entry)
                    && entry
                        .value
                        .as_ref()
                        .is_some_and(|it| it.as_slice() == value.as_slice())
            }),
            reply => matches!(reply, Reply::Nothing),
        }
}

/// Whether a store of these contents, which have this map, may reply so. Where a checksum of a
/// table was made right, it may be a filter's that rules keys out; and a table may be damaged where
/// the slow reader doesn't look.
fn may_reply(
    alloc: Global,
    contents: &Contents,
    map: &[BorrowedPair<'_>],
    step: &Step,
    reply: &Reply,
    is_table_forged: bool,
) -> Result<bool> {
    Ok(match (step, reply) {
        (_, Reply::Refused(_)) => true,
        (Step::Get(key), _) => {
            has(map, key, reply) || is_table_forged && may_find_past_filters(contents, key, reply)
        }
        (Step::Walk(_, moves), Reply::Walk(steps)) => {
            is_walk(&DefaultCmp, map, moves, &landings_of(alloc, steps)?)
        }
        _ => false,
    })
}

/// Whether a store of these contents may reply so to all that is asked. Of numbers that are too
/// great for the slow functions nothing is said.
fn may_reply_all(
    alloc: Global,
    contents: &Contents,
    asked: &[Step],
    replies: &[Reply],
    damage: &Damage,
) -> Result<bool> {
    if contents.last > 10_000 {
        return Ok(damage.is_forged);
    }
    let map = map_of(alloc, contents)?;
    for (step, reply) in asked.iter().zip(replies) {
        if !may_reply(alloc, contents, &map, step, reply, damage.is_table_forged)? {
            return Ok(false);
        }
    }
    Ok(true)
}

/// A store that is damaged: its files, and what was done to them.
#[derive(Drop)]
struct Trial {
    files: Vec<File>,
    damage: Damage,
}

impl Fuzz {
    /// What is wrong with these replies of an opening and what was asked then, if anything is.
    fn wrong_replies(
        &self,
        opened: &Result<()>,
        commands: &[Command],
        replies: &[Reply],
        is_forged: bool,
    ) -> Option<&'static str> {
        match opened {
            Err(status) if !says_damage(status, is_forged) => Some("the opening's error"),
            Ok(()) if !say_damage(replies, is_forged) => Some("an error"),
            _ if !is_forged && !are_put(&self.puts, commands, replies) => Some(
                "a pair that was not put",
            ),
            _ => None,
        }
    }

    /// Opens the files and reads all. Returns what is wrong then, if anything is.
    fn read(
        &mut self,
        trial: &Trial,
        env: &mut MemEnv,
        fuzzed: &mut Fuzzed,
    ) -> Result<Option<&'static str>> {
        let read = read_slowly(self.alloc, env)?;
        let (options, commands) = (self.options(), commands_of(self.alloc, &self.asked)?);
        let mut replies = Vec::new(self.alloc);
        let opened = run(env, "db", options, &commands, &mut replies);
        let after = files_on(self.alloc, env)?;
        let is_forged = trial.damage.is_forged;
        fuzzed.read += usize::from(read.is_some());
        fuzzed.refused_openings += usize::from(opened.is_err());
        fuzzed.refused_replies += count_refused(&replies);
        if !are_left(self.alloc, opened.is_ok(), &trial.files, &after) {
            return Ok(Some("the files"));
        }
        if !is_free(env)? {
            return Ok(Some("the lock"));
        }
        if opened.is_err() && read.is_some() && !is_forged {
            return Ok(Some("an opening that failed"));
        }
        if let (Ok(()), Some(contents)) = (&opened, &read) {
            if !may_reply_all(self.alloc, contents, &self.asked, &replies, &trial.damage)? {
                return Ok(Some("the map"));
            }
        }
        Ok(self.wrong_replies(&opened, &commands, &replies, is_forged))
    }

    /// Writes to the store, compacts it, reads all and opens it again. Returns what is wrong then,
    /// if anything is.
    fn write_on(&mut self, trial: &Trial, env: &mut MemEnv) -> Result<Option<&'static str>> {
        for _ in 0..2 {
            let (options, mut commands) = (self.options(), self.commands(8)?);
            let all = Command::Compact(Vec::new(self.alloc), Vec::new(self.alloc));
            commands.push(all)?;
            for command in commands_of(self.alloc, &self.asked)? {
                commands.push(command)?;
            }
            let mut replies = Vec::new(self.alloc);
            let opened = run(env, "db", options, &commands, &mut replies);
            let wrong = self.wrong_replies(&opened, &commands, &replies, trial.damage.is_forged);
            if wrong.is_some() {
                return Ok(wrong);
            }
        }
        Ok(if is_free(env)? {
            None
        } else {
            Some("the lock")
        })
    }
}

/// Damages the store of this seed in four ways, one after another.
pub fn fuzz(rt: &impl Abort, alloc: Global, seed: u64, fuzzed: &mut Fuzzed) -> Result<()> {
    let mut fuzz = Fuzz::new(alloc, seed)?;
    let sound = fuzz.store(rt)?;
    for round in 0..4 {
        let mut files = sound.clone()?;
        let damage = fuzz.damage(&mut files)?;
        let mut env = disk_of(alloc, &files)?;
        let trial = Trial { files, damage };
        fuzzed.stores += 1;
        let wrong = fuzz.read(&trial, &mut env, fuzzed)?;
        assert!(rt;
            wrong.is_none(),
            "seed {seed}, round {round}, read: {wrong:?} {:?}",
            trial.damage
        );
        let wrong = fuzz.write_on(&trial, &mut env)?;
        assert!(rt;
            wrong.is_none(),
            "seed {seed}, round {round}, written: {wrong:?} {:?}",
            trial.damage
        );
    }
    Ok(())
}

/// Damages the stores of these seeds.
pub fn fuzz_seeds(rt: &impl Abort, alloc: Global, from: u64, to: u64) -> Result<Fuzzed> {
    let mut fuzzed = Fuzzed {
        stores: 0,
        read: 0,
        refused_openings: 0,
        refused_replies: 0,
    };
    for seed in from..to {
        fuzz(rt, alloc, seed, &mut fuzzed)?;
    }
    Ok(fuzzed)
}

#[test]
fn stores_at_random(rt: HostRuntime) -> Result<()> {
    let fuzzed = fuzz_seeds(&rt, rt.alloc(), 0, 20)?;
    assert!(rt;
        fuzzed.refused_openings > 20 && fuzzed.read > 10,
        "{fuzzed:?}"
    );
    Ok(())
}

/// Seeds where a new store takes the place of a manifest without `CURRENT`, and where a filter that
/// was changed under a right checksum hides the newest entry of a key.
#[test]
fn a_new_store_and_a_forged_filter(rt: HostRuntime) -> Result<()> {
    let alloc = rt.alloc();
    let made = fuzz_seeds(&rt, alloc, 231, 232)?;
    let forged = fuzz_seeds(&rt, alloc, 244, 245)?;
    assert!(rt; made.read > 0 && forged.read > 0, "{made:?} {forged:?}");
    Ok(())
}

//! What several tests do with a store's files: their names and sizes, what they hold, and logs and manifests that are made by hand.
use bytes::Bytes;
use leveldb_base::cmp::DefaultCmp;
use leveldb_base::error::Result;
use leveldb_base::types::SequenceNumber;
use leveldb_disks::mem_env::{Pick, RecordEnv};
use leveldb_env::env::Env;
use leveldb_env::filter::BloomPolicy;
use leveldb_env::mem_env::MemEnv;
use leveldb_env::options::Options;
use leveldb_mem::log::LogWriter;
use leveldb_mem::write_batch::WriteBatch;
use rusty_leveldb::DB;
use rusty_leveldb::db_impl::Engine;
use slow_history::Entry;
use slow_store::read_store;
use std::alloc::Global;
use support::{File, file_bytes, put_file};

/// The path of the store.
pub const STORE: &str = "db";

/// A key, and its new value, or none to delete it.
pub type Change = (&'static str, Option<&'static str>);

pub type DefaultOptions = Options<DefaultCmp, BloomPolicy>;

pub type DefaultEngine<E> = Engine<E, DefaultCmp, BloomPolicy>;

pub type DefaultDB<'e, E> = DB<'e, E, DefaultCmp, BloomPolicy>;

/// Options that use on, or not, the last log and the manifest.
pub fn reusing(logs: bool, manifest: bool) -> DefaultOptions {
    let mut options = Options::default();
    options.reuse_logs = logs;
    options.reuse_manifest = manifest;
    options
}

/// Options with a memtable of so many bytes.
pub fn buffered(write_buffer_size: usize) -> DefaultOptions {
    let mut options = Options::default();
    options.write_buffer_size = write_buffer_size;
    options
}

/// An engine on this device.
pub fn opened<E: Env>(
    alloc: Global,
    env: &mut E,
    options: DefaultOptions,
) -> Result<DefaultEngine<E>> {
    Engine::open(alloc, STORE, env, options)
}

/// A store on this device.
pub fn opened_db<E: Env>(
    alloc: Global,
    env: &mut E,
    options: DefaultOptions,
) -> Result<DefaultDB<'_, E>> {
    DB::open(alloc, STORE, env, options)
}

/// Opens the store, and gives back its lock at once.
pub fn reopen<E: Env>(alloc: Global, env: &mut E, options: DefaultOptions) -> Result<()> {
    // Not by `opened`: a function that is given boxes, hands them to another of this crate and
    // returns none isn't covered by the borrow checker.
    Engine::open(alloc, STORE, env, options)?.abandon(env)
}

/// Opens the store, puts each of these pairs in a batch of its own, and gives back its lock.
pub fn put_all<E: Env>(
    alloc: Global,
    env: &mut E,
    options: DefaultOptions,
    pairs: &[(&str, &str)],
) -> Result<()> {
    let mut engine = Engine::open(alloc, STORE, env, options)?;
    for (key, value) in pairs {
        engine.put(env, key.as_bytes(), value.as_bytes())?;
    }
    engine.abandon(env)
}

/// What a crash at this moment leaves: all bytes, or those alone that a crash keeps; of a call that
/// begins then, what it did or what was there before.
pub fn left_at(alloc: Global, env: &RecordEnv, moment: u64, whole: bool) -> Result<RecordEnv> {
    let tails = if whole {
        env.tails(alloc, moment, true)?
    } else {
        Vec::new(alloc)
    };
    let pick = Pick {
        tails,
        after: whole,
    };
    env.disk_at(alloc, moment, &pick)
}

/// Makes a trial for one of `every` calls of the device, which fails then, done or not. A trial
/// says whether what it tries is Ok, or none where that makes fewer calls. Returns how many were
/// refused, and how many were Ok.
pub fn fail_in_turn<F: Fn(u64) -> Result<Option<bool>>>(
    every: u64,
    done: bool,
    trial: F,
) -> Result<(usize, usize)> {
    let mut refused = 0;
    let mut through = 0;
    let mut nth = 1 + u64::from(done) % every;
    while let Some(is_ok) = trial(nth)? {
        if is_ok {
            through += 1;
        } else {
            refused += 1;
        }
        nth += every;
    }
    Ok((refused, through))
}

/// Whether each of these files is there and begins with its bytes.
pub fn has_bytes<E: Env>(alloc: Global, env: &mut E, files: &[File]) -> Result<bool> {
    for (name, bytes) in files {
        let path = format!(in alloc; "{STORE}/{name}")?;
        if !env.exists(&path)? {
            return Ok(false);
        }
        if !file_bytes(alloc, env, name)?.starts_with(bytes.as_slice()) {
            return Ok(false);
        }
    }
    Ok(true)
}

/// A batch of these changes.
pub fn batch_of(alloc: Global, changes: &[Change]) -> Result<WriteBatch> {
    let mut batch = WriteBatch::new(alloc)?;
    for (key, value) in changes {
        match value {
            None => batch.delete(key.as_bytes())?,
            Some(value) => batch.put(key.as_bytes(), value.as_bytes())?,
        }
    }
    Ok(batch)
}

/// A disk with a store of these pairs in one log.
pub fn store_of(alloc: Global, pairs: &[(&str, &str)]) -> Result<MemEnv> {
    let mut env = MemEnv::new(alloc);
    put_all(alloc, &mut env, Options::default(), pairs)?;
    Ok(env)
}

/// These bytes as a text.
pub fn text_of(alloc: Global, bytes: &[u8]) -> Result<String> {
    let text = std::str::from_utf8(bytes).unwrap_or("?");
    Ok(String::from_str(alloc, text)?)
}

/// The pairs that a store shows which is opened with these options, in order.
pub fn map_with<E: Env>(alloc: Global, env: &mut E, options: DefaultOptions) -> Result<String> {
    let mut db = opened_db(alloc, env, options)?;
    let mut text = String::new(alloc);
    let mut it = db.new_iter()?;
    while it.advance()? {
        if let Some((key, value)) = it.current() {
            text.push_str(&pair_text(alloc, key, value)?)?;
        }
    }
    drop(it);
    db.abandon()?;
    Ok(text)
}

/// The same with default options.
pub fn map_of<E: Env>(alloc: Global, env: &mut E) -> Result<String> {
    map_with(alloc, env, Options::default())
}

/// A pair of a map, as text, with a space before it.
pub fn pair_text(alloc: Global, key: &[u8], value: &[u8]) -> Result<String> {
    let key = text_of(alloc, key)?;
    let value = text_of(alloc, value)?;
    Ok(format!(in alloc; " {key}={value}")?)
}

/// A file's name and its size.
fn line_of<E: Env>(alloc: Global, env: &mut E, name: &str) -> Result<String> {
    let path = format!(in alloc; "{STORE}/{name}")?;
    let size = env.size_of(&path)?;
    Ok(format!(in alloc; "{name}:{size} ")?)
}

/// The names of the store's folder and the sizes of its files, in the order of names.
pub fn files_of<E: Env>(alloc: Global, env: &mut E) -> Result<String> {
    let mut names = env.children(alloc, STORE)?;
    names.sort()?;
    let mut text = String::new(alloc);
    for name in &names {
        text.push_str(&line_of(alloc, env, name)?)?;
    }
    Ok(text)
}

/// Whether these are the names of the store's folder and the sizes of its files.
pub fn has_files<E: Env>(alloc: Global, env: &mut E, wanted: &str) -> Result<bool> {
    Ok(files_of(alloc, env)?.as_str() == wanted)
}

/// A number and its key.
fn word_of(alloc: Global, entry: &Entry) -> Result<String> {
    let key = std::str::from_utf8(entry.key.as_slice()).unwrap_or("?");
    Ok(format!(in alloc; " {}{key}", entry.sequence)?)
}

/// What the slow store reads: the last number, and each number with its key.
pub fn contents_of<E: Env>(alloc: Global, env: &mut E) -> Result<String> {
    let Some(contents) = read_store(alloc, env, &DefaultCmp, STORE)? else {
        return Ok(String::from_str(alloc, "none")?);
    };
    let mut text = format!(in alloc; "{}:", contents.last)?;
    for entry in &contents.entries {
        text.push_str(&word_of(alloc, entry)?)?;
    }
    Ok(text)
}

/// Whether this is what the slow store reads.
pub fn holds<E: Env>(alloc: Global, env: &mut E, wanted: &str) -> Result<bool> {
    Ok(contents_of(alloc, env)?.as_str() == wanted)
}

/// The one byte of a value that was looked up, `-` for none, `?` for another value.
pub fn one_byte(found: Option<Bytes>) -> u8 {
    match found {
        None => b'-',
        Some(value) => match value.as_slice() {
            [byte] => *byte,
            _ => b'?',
        },
    }
}

/// How many tables are in the store's folder.
pub fn count_tables<E: Env>(alloc: Global, env: &mut E) -> Result<usize> {
    let names = env.children(alloc, STORE)?;
    Ok(
        names
            .iter()
            .filter(|name| name.as_str().ends_with(".ldb"))
            .count(),
    )
}

/// Cuts a file of the store to so many bytes.
pub fn cut_file<E: Env>(alloc: Global, env: &mut E, name: &str, size: usize) -> Result<()> {
    let mut bytes = file_bytes(alloc, env, name)?;
    bytes.truncate(size);
    put_file(alloc, env, name, bytes.as_slice())
}

/// A number, and a key whose value is `v`.
pub type Row = (SequenceNumber, &'static str);

/// Makes a log of these rows, each in a batch of its own: 24 bytes for a key of one byte.
pub fn put_log<E: Env>(alloc: Global, env: &mut E, name: &str, rows: &[Row]) -> Result<()> {
    let mut puts = Vec::new(alloc);
    for (sequence, key) in rows {
        puts.push((*sequence, *key, "v"))?;
    }
    put_log_of(alloc, env, name, &puts)
}

/// The same of numbers, each with its key and value.
pub fn put_log_of<E: Env>(
    alloc: Global,
    env: &mut E,
    name: &str,
    puts: &[(SequenceNumber, &str, &str)],
) -> Result<()> {
    let mut writer = LogWriter::new(alloc, Vec::new(alloc));
    for (sequence, key, value) in puts {
        let mut batch = WriteBatch::new(alloc)?;
        batch.put(key.as_bytes(), value.as_bytes())?;
        batch.set_sequence(*sequence);
        writer.add_record(batch.contents())?;
    }
    put_file(alloc, env, name, writer.sink.as_slice())
}

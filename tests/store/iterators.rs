//! Iterators over a store: in memory, over tables, and at a snapshot.
use super::stores::{DefaultDB, opened_db};
use leveldb_base::cmp::DefaultCmp;
use leveldb_base::error::{Result, StatusCode};
use leveldb_env::filter::BloomPolicy;
use rusty_leveldb::{DBIterator, MemEnv, Options, Snapshot};
use std::alloc::Global;

type Store<'a> = DefaultDB<'a, MemEnv>;

type Places<'a> = DBIterator<'a, MemEnv, DefaultCmp, BloomPolicy>;

/// Three entries fill the memtable.
const WRITE_BUFFER_SIZE: usize = 300;

/// Puts that overwrite one another, over tables of several levels and the memtable.
const PUTS: &[(&[u8], &[u8])] = &[
    (b"c", b"1"),
    (b"a", b"2"),
    (b"e", b"3"),
    (b"b", b"4"),
    (b"a", b"5"),
    (b"d", b"6"),
    (b"c", b"7"),
    (b"f", b"8"),
    (b"a", b"9"),
    (b"g", b"0"),
];

/// How many keys they have.
const COUNT: usize = 7;

/// Whether this is the pair.
fn is_pair(pair: Option<(&[u8], &[u8])>, key: &[u8], value: &[u8]) -> bool {
    match pair {
        None => false,
        Some((k, v)) => k == key && v == value,
    }
}

/// Puts three keys, and deletes the second.
fn put_and_delete(db: &mut Store) -> Result<()> {
    db.put(b"a", b"1")?;
    db.put(b"b", b"2")?;
    db.put(b"c", b"3")?;
    db.delete(b"b")
}

/// Whether it finds c, goes back over a, stays before it, and comes to it again.
fn turns_at_both_ends(it: &mut Places) -> Result<bool> {
    it.seek(b"c")?;
    let last = is_pair(it.current(), b"c", b"3");
    let back = it.prev()? && is_pair(it.current(), b"a", b"1");
    let before = it.prev()? || it.prev()? || it.valid();
    let on = it.advance()? && is_pair(it.current(), b"a", b"1");
    Ok(last && back && !before && on)
}

#[test]
fn moves_turn_at_both_ends(rt: HostRuntime) -> Result<()> {
    let alloc = rt.alloc();
    let mut env = MemEnv::new(alloc);
    let mut db = opened_db(alloc, &mut env, Options::default())?;
    put_and_delete(&mut db)?;
    let mut it = db.new_iter()?;
    assert!(rt; turns_at_both_ends(&mut it)?);
    Ok(())
}

#[test]
fn empty_key_and_value(rt: HostRuntime) -> Result<()> {
    let alloc = rt.alloc();
    let mut env = MemEnv::new(alloc);
    let mut db = opened_db(alloc, &mut env, Options::default())?;
    db.put(b"", b"")?;
    let mut it = db.new_iter()?;
    it.seek(b"")?;
    assert!(rt; is_pair(it.current(), b"", b""));
    it.reset();
    assert!(rt; it.current().is_none());
    it.seek_to_last()?;
    assert!(rt; it.valid());
    Ok(())
}

/// Puts all of `PUTS`.
fn put_all(db: &mut Store) -> Result<()> {
    for (key, value) in PUTS {
        db.put(key, value)?;
    }
    Ok(())
}

/// The pairs after the place, one after another, of one move more than there are keys.
fn pairs_after(alloc: Global, it: &mut Places) -> Result<Vec<u8>> {
    let mut found = Vec::new(alloc);
    for _ in 0..COUNT + 1 {
        if let Some((key, value)) = it.next()? {
            found.extend_from_slice(key.as_slice())?;
            found.extend_from_slice(value.as_slice())?;
        }
    }
    Ok(found)
}

#[test]
fn next_over_tables_and_memory(rt: HostRuntime) -> Result<()> {
    let mut env = MemEnv::new(rt.alloc());
    let mut options = Options::default();
    options.write_buffer_size = WRITE_BUFFER_SIZE;
    let mut db = opened_db(rt.alloc(), &mut env, options)?;
    put_all(&mut db)?;
    let mut it = db.new_iter()?;
    assert!(rt; pairs_after(rt.alloc(), &mut it)?.as_slice() == b"a9b4c7d6e3f8g0".as_slice());
    assert!(rt; !it.valid());
    Ok(())
}

#[test]
fn iterator_at_a_snapshot(rt: HostRuntime) -> Result<()> {
    let alloc = rt.alloc();
    let mut env = MemEnv::new(alloc);
    let mut db = opened_db(alloc, &mut env, Options::default())?;
    db.put(b"a", b"1")?;
    let snapshot = db.get_snapshot()?;
    db.put(b"a", b"2")?;
    db.put(b"b", b"3")?;
    let mut it = db.new_iter_at(&snapshot)?;
    it.seek_to_last()?;
    assert!(rt; is_pair(it.current(), b"a", b"1"));
    Ok(())
}

/// Whether an iterator at the snapshot is `InvalidArgument`.
fn is_not_held(db: &mut Store, snapshot: &Snapshot) -> Result<bool> {
    match iterate_at(db, snapshot) {
        Ok(()) => Ok(false),
        Err(status) => Ok(status.code == StatusCode::InvalidArgument),
    }
}

fn iterate_at(db: &mut Store, snapshot: &Snapshot) -> Result<()> {
    let mut it = db.new_iter_at(snapshot)?;
    it.seek_to_first()
}

/// A snapshot that was released is refused to an iterator, and one that is held goes on to be read.
fn refused_at_a_released_snapshot(db: &mut Store) -> Result<bool> {
    db.put(b"a", b"1")?;
    let held = db.get_snapshot()?;
    let snapshot = db.get_snapshot()?;
    db.release_snapshot(snapshot)?;
    let is_refused = is_not_held(db, &snapshot)?;
    db.put(b"a", b"2")?;
    let is_held = match db.get_at(&held, b"a")? {
        None => false,
        Some(found) => found.as_slice() == b"1".as_slice(),
    };
    Ok(is_refused && is_held)
}

/// A store that refused an iterator goes on, and is found as it was left when it is opened again.
#[test]
fn refused_iterator_leaves_the_store(rt: HostRuntime) -> Result<()> {
    let mut env = MemEnv::new(rt.alloc());
    let mut db = opened_db(rt.alloc(), &mut env, Options::default())?;
    assert!(rt; refused_at_a_released_snapshot(&mut db)?);
    db.close()?;
    drop(db);
    let mut db = opened_db(rt.alloc(), &mut env, Options::default())?;
    let mut it = db.new_iter()?;
    it.seek_to_first()?;
    assert!(rt; is_pair(it.current(), b"a", b"2"));
    Ok(())
}

/// What an iterator finds from begin to end. It is gone when this returns.
fn walked(alloc: Global, db: &mut Store) -> Result<Vec<u8>> {
    let mut it = db.new_iter()?;
    pairs_after(alloc, &mut it)
}

/// Whether the key has this value.
fn has_value(db: &mut Store, key: &[u8], value: &[u8]) -> Result<bool> {
    match db.get(key)? {
        None => Ok(false),
        Some(found) => Ok(found.as_slice() == value),
    }
}

/// Writes after an iterator, looks up what it and the writes before had put, and walks again.
fn uses_on(alloc: Global, db: &mut Store) -> Result<bool> {
    let snapshot = db.get_snapshot()?;
    let first = walked(alloc, db)?;
    db.put(b"h", b"1")?;
    let found = has_value(db, b"h", b"1")? && has_value(db, b"a", b"9")?;
    let before = db.get_at(&snapshot, b"h")?.is_none();
    db.release_snapshot(snapshot)?;
    let second = walked(alloc, db)?;
    Ok(
        found
            && before
            && first.as_slice() == b"a9b4c7d6e3f8g0".as_slice()
            && second.as_slice() == b"a9b4c7d6e3f8g0h1".as_slice(),
    )
}

#[test]
fn store_is_used_on_after_an_iterator(rt: HostRuntime) -> Result<()> {
    let alloc = rt.alloc();
    let mut env = MemEnv::new(alloc);
    let mut options = Options::default();
    options.write_buffer_size = WRITE_BUFFER_SIZE;
    let mut db = opened_db(alloc, &mut env, options)?;
    put_all(&mut db)?;
    assert!(rt; uses_on(alloc, &mut db)?);
    db.close()?;
    drop(db);
    let mut db = opened_db(alloc, &mut env, Options::default())?;
    assert!(rt; has_value(&mut db, b"h", b"1")?);
    assert!(rt; walked(alloc, &mut db)?.as_slice() == b"a9b4c7d6e3f8g0h1".as_slice());
    Ok(())
}

//! Walks over lists in memory: one that needs nothing, and one that makes a call of a device in
//! each move.

use bytes::Bytes;
use leveldb_base::cmp::{Cmp, DefaultCmp, InternalKeyCmp};
use leveldb_base::error::{Result, Status, StatusCode};
use leveldb_base::key_types::{ValueType, tag_bytes};
use leveldb_base::types::LdbIterator;
use leveldb_iter::walk::Walk;
use std::alloc::Global;
use support::Listed;

/// A device whose next calls succeed, then one fails, and all after it succeed.
#[derive(Drop)]
pub struct Device {
    pub calls_left: u64,
}

impl Device {
    fn call(&mut self) -> Result<()> {
        let Some(left) = self.calls_left.checked_sub(1) else {
            self.calls_left = u64::MAX;
            return Err(Status {
                code: StatusCode::IOError,
                err: None,
            });
        };
        self.calls_left = left;
        Ok(())
    }
}

/// A list of these keys, each of one letter, with the value of that letter.
pub fn list_of(alloc: Global, keys: &'static str) -> Result<Listed<DefaultCmp>> {
    let mut pairs = Vec::new(alloc);
    let bytes = keys.as_bytes();
    for i in 0..bytes.len() {
        pairs.push((
            Bytes::copy_from_slice(alloc, &bytes[i..=i])?,
            Bytes::copy_from_slice(alloc, &bytes[i..=i])?,
        ))?;
    }
    Ok(Listed::new(DefaultCmp, pairs))
}

/// A list of these keys, each with the value "def".
pub fn list_of_keys(alloc: Global, keys: &[&[u8]]) -> Result<Listed<DefaultCmp>> {
    let mut pairs = Vec::new(alloc);
    for key in keys {
        pairs.push((
            Bytes::copy_from_slice(alloc, key)?,
            Bytes::copy_from_slice(alloc, b"def")?,
        ))?;
    }
    Ok(Listed::new(DefaultCmp, pairs))
}

/// A list of these entries: each has the key of a letter, the sequence number of a digit and
/// that digit as its value, or is a deletion.
pub fn list_of_entries(
    alloc: Global,
    entries: &[(u8, u8, ValueType)],
) -> Result<Listed<InternalKeyCmp<DefaultCmp>>> {
    let mut pairs = Vec::new(alloc);
    push_entries(alloc, &mut pairs, entries)?;
    Ok(Listed::new(InternalKeyCmp(DefaultCmp), pairs))
}

/// The same with a pair between two lists of entries whose key has three bytes, and so no tag.
pub fn list_of_damaged(
    alloc: Global,
    front: &[(u8, u8, ValueType)],
    back: &[(u8, u8, ValueType)],
) -> Result<Listed<InternalKeyCmp<DefaultCmp>>> {
    let mut pairs = Vec::new(alloc);
    push_entries(alloc, &mut pairs, front)?;
    pairs.push((Bytes::copy_from_slice(alloc, b"bad")?, Bytes::new()))?;
    push_entries(alloc, &mut pairs, back)?;
    Ok(Listed::new(InternalKeyCmp(DefaultCmp), pairs))
}

// Adds the pairs of these entries.
fn push_entries(
    alloc: Global,
    pairs: &mut Vec<(Bytes, Bytes)>,
    entries: &[(u8, u8, ValueType)],
) -> Result<()> {
    for (letter, digit, kind) in entries {
        let mut key = Vec::new(alloc);
        key.push(*letter)?;
        key.extend_from_slice(&tag_bytes(u64::from(*digit), *kind))?;
        let value = match kind {
            ValueType::TypeDeletion => Bytes::new(),
            ValueType::TypeValue => Bytes::copy_from_slice(alloc, &[*digit])?,
        };
        pairs.push((Bytes::copy_from_slice(alloc, key.as_slice())?, value))?;
    }
    Ok(())
}

/// A list in memory whose moves each make a call of a device first.
#[derive(Drop)]
pub struct Source<C> {
    pub list: Listed<C>,
}

impl<C: Cmp> Source<C> {
    // Makes the call, and is at no position where that fails.
    fn call(&mut self, device: &mut Device) -> Result<()> {
        let called = device.call();
        if called.is_err() {
            self.list.reset();
        }
        called
    }
}

impl<C: Cmp, T> Walk<Device, T> for Source<C> {
    ghost over = { ? };

    ghost is_at = { ? };

    ghost here = { ? };

    ghost fails = { ? };

    ghost keeps = { ? };

    fn advance(&mut self, device: &mut Device, _tables: &mut T) -> Result<bool> {
        self.call(device)?;
        self.list.advance()
    }

    fn prev(&mut self, device: &mut Device, _tables: &mut T) -> Result<bool> {
        self.call(device)?;
        self.list.prev()
    }

    fn seek(&mut self, device: &mut Device, _tables: &mut T, key: &[u8]) -> Result<()> {
        self.call(device)?;
        self.list.seek(key)
    }

    fn seek_to_first(&mut self, device: &mut Device, _tables: &mut T) -> Result<()> {
        self.call(device)?;
        self.list.seek_to_first()
    }

    fn seek_to_last(&mut self, device: &mut Device, _tables: &mut T) -> Result<()> {
        self.call(device)?;
        self.list.seek_to_last()
    }

    fn reset(&mut self) {
        self.list.reset();
    }

    fn current(&self) -> Option<(&[u8], &[u8])> {
        self.list.current()
    }

    fn valid(&self) -> bool {
        self.list.valid()
    }

    ghost laws = { ? };
}

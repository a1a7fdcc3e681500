//! Merges of lists of entries in memory.
use bytes::Bytes;
use leveldb_base::cmp::{DefaultCmp, InternalKeyCmp};
use leveldb_base::error::Result;
use leveldb_base::key_types::{ValueType, parse_internal_key, tag_bytes};
use leveldb_iter::in_memory::InMemory;
use leveldb_iter::merging_iter::MergeCore;
use std::alloc::Global;
use support::Listed;

/// The letter of a key, its number, and the letter of its value, or none for a deletion.
pub type Row = (u8, u64, Option<u8>);

pub type List = InMemory<Listed<InternalKeyCmp<DefaultCmp>>>;

pub type Merged = MergeCore<InternalKeyCmp<DefaultCmp>, List>;

/// The internal key and the value of a row.
pub fn pair_of(alloc: Global, row: &Row) -> Result<(Bytes, Bytes)> {
    let (letter, number, value) = *row;
    let mut key = Vec::new(alloc);
    key.push(letter)?;
    let kind = match value {
        None => ValueType::TypeDeletion,
        Some(_) => ValueType::TypeValue,
    };
    key.extend_from_slice(&tag_bytes(number, kind))?;
    let value = match value {
        None => Bytes::new(),
        Some(letter) => Bytes::copy_from_slice(alloc, &[letter])?,
    };
    Ok((Bytes::copy_from_slice(alloc, key.as_slice())?, value))
}

/// An entry as a word: its number, its key, and its value or a minus.
pub fn word_of(alloc: Global, number: u64, key: &[u8], value: Option<&[u8]>) -> Result<String> {
    let key = std::str::from_utf8(key).unwrap_or("?");
    Ok(match value {
        None => format!(in alloc; "{number}{key}-")?,
        Some(value) => {
            let value = std::str::from_utf8(value).unwrap_or("?");
            format!(in alloc; "{number}{key}={value}")?
        }
    })
}

/// The same of the entry of an internal key.
pub fn pair_word(alloc: Global, key: &[u8], value: &[u8]) -> Result<String> {
    let (kind, number, user) = parse_internal_key(key);
    let value = Some(value).filter(|_| kind == ValueType::TypeValue);
    word_of(alloc, number, user, value)
}

/// These words as a text, with a space before each.
pub fn joined(alloc: Global, words: &[String]) -> Result<String> {
    let mut text = String::new(alloc);
    for word in words {
        text.push_str(" ")?;
        text.push_str(word)?;
    }
    Ok(text)
}

/// A walk over these pairs.
pub fn list_of(pairs: Vec<(Bytes, Bytes)>) -> List {
    InMemory(Listed::new(InternalKeyCmp(DefaultCmp), pairs))
}

/// The merge of lists of these rows.
pub fn merge_of(alloc: Global, lists: &[&[Row]]) -> Result<Merged> {
    let mut children = Vec::new(alloc);
    for rows in lists {
        let mut pairs = Vec::new(alloc);
        for row in *rows {
            pairs.push(pair_of(alloc, row)?)?;
        }
        children.push(list_of(pairs))?;
    }
    Ok(MergeCore::new::<(), ()>(InternalKeyCmp(DefaultCmp), children))
}

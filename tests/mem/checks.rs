//! What several tests ask, and the batch that they share.
use leveldb_base::error::Result;
use leveldb_mem::write_batch::WriteBatch;
use std::alloc::Global;

/// Whether these are the records, in this order.
pub fn are_records(found: &[Vec<u8>], wanted: &[&[u8]]) -> bool {
    for (record, bytes) in found.iter().zip(wanted) {
        if record.as_slice() != *bytes {
            return false;
        }
    }
    found.len() == wanted.len()
}

/// Three puts and two deletions.
pub const CHANGES: [(&[u8], Option<&[u8]>); 5] = [
    (b"abc", Some(b"def")),
    (b"123", Some(b"456")),
    (b"xxx", Some(b"yyy")),
    (b"zzz", None),
    (b"010", None),
];

fn add_change(batch: &mut WriteBatch, key: &[u8], value: Option<&[u8]>) -> Result<()> {
    match value {
        Some(value) => batch.put(key, value),
        None => batch.delete(key),
    }
}

/// The five changes, which are 49 bytes.
pub fn five_changes(alloc: Global) -> Result<WriteBatch> {
    let mut batch = WriteBatch::new(alloc)?;
    for (key, value) in &CHANGES {
        add_change(&mut batch, key, *value)?;
    }
    Ok(batch)
}

//! What a compaction of small tables takes and may leave, by trying each set of entries.
use leveldb_base::cmp::Cmp;
use leveldb_base::error::Result;
use leveldb_base::types::SequenceNumber;
use std::alloc::Global;

/// A table without its entries: its level, and its first and last user key.
#[derive(Clone, Copy)]
pub struct TableSpan<'a> {
    pub level: usize,
    pub first: &'a [u8],
    pub last: &'a [u8],
}

/// An entry of a table: the table's index, and a value, or none for a deletion.
#[derive(Clone, Copy)]
pub struct TableEntry<'a> {
    pub table: usize,
    pub sequence: SequenceNumber,
    pub key: &'a [u8],
    pub value: Option<u8>,
}

/// A compaction of a level that may be tried: all tables, all their entries, its inputs, and the
/// smallest held number. It has at most 20 entries.
#[derive(Clone, Copy)]
pub struct Trial<'t, 'a> {
    pub tables: &'t [TableSpan<'a>],
    pub entries: &'t [TableEntry<'a>],
    pub inputs: u32,
    pub level: usize,
    pub smallest: SequenceNumber,
}

/// Whether a set of indices below 32, which is a number with a bit for each, has this one.
pub fn has(set: u32, index: usize) -> bool {
    set / (1 << (index as u32)) % 2 == 1
}

/// The set with one index more.
pub fn with(set: u32, index: usize) -> u32 {
    if has(set, index) {
        set
    } else {
        set + (1 << (index as u32))
    }
}

/// The set of tables, and each table of a level that has keys between the first key of one of the
/// set and the last key of one.
fn with_overlapping<C: Cmp>(cmp: &C, tables: &[TableSpan<'_>], level: usize, set: u32) -> u32 {
    let mut found = set;
    for (index, table) in tables.iter().enumerate() {
        let mut begins = false;
        let mut ends = false;
        for (at, other) in tables.iter().enumerate() {
            if has(set, at) {
                begins = begins || !cmp.cmp(table.last, other.first).is_lt();
                ends = ends || !cmp.cmp(other.last, table.first).is_lt();
            }
        }
        if table.level == level && begins && ends {
            found = with(found, index);
        }
    }
    found
}

/// The tables that a compaction of a level takes with these of it: in level 0 each that has keys
/// between the first and the last of theirs, and of the next level each that has.
pub fn tables_to_compact<C: Cmp>(
    cmp: &C,
    tables: &[TableSpan<'_>],
    level: usize,
    chosen: u32,
) -> u32 {
    let mut taken = chosen;
    if level == 0 {
        for _ in 0..tables.len() {
            taken = with_overlapping(cmp, tables, 0, taken);
        }
    }
    with_overlapping(cmp, tables, level + 1, taken)
}

/// The value of a key at a number in a set of entries: its newest entry's there, if it has one.
pub fn value_at(
    entries: &[TableEntry<'_>],
    set: u32,
    key: &[u8],
    number: SequenceNumber,
) -> Option<u8> {
    let mut newest = 0;
    let mut value = None;
    for (index, entry) in entries.iter().enumerate() {
        let is_seen = has(set, index) && entry.key == key && entry.sequence <= number;
        if is_seen && entry.sequence >= newest {
            newest = entry.sequence;
            value = entry.value;
        }
    }
    value
}

impl<'t, 'a> Trial<'t, 'a> {
    /// The entries of its inputs.
    pub fn inputs(&self) -> u32 {
        let mut set = 0;
        for (index, entry) in self.entries.iter().enumerate() {
            if has(self.inputs, entry.table) {
                set = with(set, index);
            }
        }
        set
    }

    /// Whether a set of entries has a newer one of the entry's key, at or below the smallest held
    /// number.
    fn is_shadowed(&self, set: u32, at: usize) -> bool {
        let entry = self.entries[at];
        let mut found = false;
        for (index, other) in self.entries.iter().enumerate() {
            let is_newer = other.key == entry.key && other.sequence > entry.sequence;
            found = found || (has(set, index) && is_newer && other.sequence <= self.smallest);
        }
        found
    }

    /// Whether the entry is a deletion at or below the smallest held number.
    fn is_old_deletion(&self, at: usize) -> bool {
        let entry = self.entries[at];
        entry.value.is_none() && entry.sequence <= self.smallest
    }

    /// Whether a set of entries has none of the entry's key that is older.
    fn has_no_older(&self, set: u32, at: usize) -> bool {
        let entry = self.entries[at];
        let mut found = false;
        for (index, other) in self.entries.iter().enumerate() {
            let is_older = other.key == entry.key && other.sequence < entry.sequence;
            found = found || (has(set, index) && is_older);
        }
        !found
    }

    /// Whether no table deeper than the outputs has the entry's key in its range.
    pub fn is_base_level_for<C: Cmp>(&self, cmp: &C, at: usize) -> bool {
        let key = self.entries[at].key;
        let mut found = false;
        for table in self.tables {
            let is_deeper = table.level > self.level + 1;
            let has_key = !cmp.cmp(key, table.first).is_lt() && !cmp.cmp(table.last, key).is_lt();
            found = found || (is_deeper && has_key);
        }
        !found
    }

    /// Whether the outputs may have these entries: they are the inputs' but for some that are
    /// shadowed, or deletions that nothing is left for to delete.
    pub fn may_leave<C: Cmp>(&self, cmp: &C, left: u32) -> bool {
        let inputs = self.inputs();
        let mut may = true;
        for at in 0..self.entries.len() {
            let is_spent = self.is_old_deletion(at)
                && self.has_no_older(left, at)
                && self.is_base_level_for(cmp, at);
            let may_go = self.is_shadowed(inputs, at) || is_spent;
            may = may && (has(inputs, at) || !has(left, at));
            may = may && (!has(inputs, at) || has(left, at) || may_go);
        }
        may
    }

    /// Whether none of these entries may go.
    pub fn must_leave<C: Cmp>(&self, cmp: &C, left: u32) -> bool {
        let inputs = self.inputs();
        let mut must = true;
        for at in 0..self.entries.len() {
            let goes = self.is_shadowed(inputs, at)
                || (self.is_old_deletion(at) && self.is_base_level_for(cmp, at));
            must = must && !(has(left, at) && goes);
        }
        must
    }

    /// The sets of entries that the outputs may have.
    pub fn sets_left<C: Cmp>(&self, alloc: Global, cmp: &C) -> Result<Vec<u32>> {
        let mut sets = Vec::new(alloc);
        for left in 0..(1 << (self.entries.len() as u32)) {
            if self.may_leave(cmp, left) {
                sets.push(left)?;
            }
        }
        Ok(sets)
    }

    /// All entries after the compaction, where the outputs have these.
    pub fn after(&self, left: u32) -> u32 {
        let inputs = self.inputs();
        let mut set = left;
        for at in 0..self.entries.len() {
            if !has(inputs, at) {
                set = with(set, at);
            }
        }
        set
    }
}

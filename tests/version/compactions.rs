//! Which tables a compaction takes, and which entries it may leave: rows by hand, and small stores
//! at random, of which each set that may be left shows the same.
use leveldb_base::cmp::DefaultCmp;
use leveldb_base::error::Result;
use leveldb_base::types::SequenceNumber;
use slow_store::{TableEntry, TableSpan, Trial, has, tables_to_compact, value_at, with};
use std::alloc::Global;
use std::process::Abort;

/// An entry: the index of its table, its number, its key, and its value or none.
type Row = (usize, SequenceNumber, &'static str, Option<u8>);

/// A table: its level, its first and its last user key.
type Span = (usize, &'static str, &'static str);

fn spans_of(alloc: Global, rows: &[Span]) -> Result<Vec<TableSpan<'static>>> {
    let mut spans = Vec::new(alloc);
    for row in rows {
        spans.push(TableSpan {
            level: row.0,
            first: row.1.as_bytes(),
            last: row.2.as_bytes(),
        })?;
    }
    Ok(spans)
}

fn entries_of(alloc: Global, rows: &[Row]) -> Result<Vec<TableEntry<'static>>> {
    let mut entries = Vec::new(alloc);
    for row in rows {
        entries.push(TableEntry {
            table: row.0,
            sequence: row.1,
            key: row.2.as_bytes(),
            value: row.3,
        })?;
    }
    Ok(entries)
}

/// The set of these indices.
fn set_of(indices: &[usize]) -> u32 {
    let mut set = 0;
    for index in indices {
        set = with(set, *index);
    }
    set
}

// ---- by hand

/// A key with five versions. Snapshots hold 4 and 7, so 4 is the smallest held number: 9, 7 and 3
/// stay, as 4 shows 3; 2 and 1 may go.
#[test]
fn five_versions(rt: HostRuntime) -> Result<()> {
    let tables = spans_of(rt.alloc(), &[(1, "k", "k"), (2, "k", "k")])?;
    let rows: [Row; 5] = [
        (0, 9, "k", None),
        (0, 7, "k", Some(7)),
        (1, 3, "k", Some(3)),
        (1, 2, "k", None),
        (1, 1, "k", Some(1)),
    ];
    let entries = entries_of(rt.alloc(), &rows)?;
    let trial = Trial {
        tables: tables.as_slice(),
        entries: entries.as_slice(),
        inputs: tables_to_compact(&DefaultCmp, tables.as_slice(), 1, 1),
        level: 1,
        smallest: 4,
    };
    assert!(rt; trial.inputs == 3);
    let sets = trial.sets_left(rt.alloc(), &DefaultCmp)?;
    assert!(rt; sets.as_slice() == [7, 15, 23, 31].as_slice());
    assert!(rt; trial.must_leave(&DefaultCmp, 7) && !trial.must_leave(&DefaultCmp, 15));
    // the newest version alone is no such set, nor are the two that are held without the third
    assert!(rt; !trial.may_leave(&DefaultCmp, 1) && !trial.may_leave(&DefaultCmp, 3));
    Ok(())
}

/// A deletion in level 1 whose key has a value in level 3 stays; where level 3 has no such key, it
/// goes with what it deletes. A key that is only in the range of a deeper table keeps it, too.
#[test]
fn deletion_over_a_deeper_value(rt: HostRuntime) -> Result<()> {
    let rows: [Row; 3] = [
        (0, 5, "b", None),
        (1, 3, "b", Some(3)),
        (2, 2, "b", Some(2)),
    ];
    let entries = entries_of(rt.alloc(), &rows)?;
    for (deepest, left) in [((3, "b", "b"), 1), ((3, "a", "c"), 1), ((3, "c", "d"), 0)] {
        let tables = spans_of(rt.alloc(), &[(1, "b", "b"), (2, "a", "c"), deepest])?;
        let count = if left == 1 { 3 } else { 2 };
        let trial = Trial {
            tables: tables.as_slice(),
            entries: &entries.as_slice()[..count],
            inputs: tables_to_compact(&DefaultCmp, tables.as_slice(), 1, 1),
            level: 1,
            smallest: 9,
        };
        assert!(rt; trial.inputs == 3);
        assert!(rt; trial.may_leave(&DefaultCmp, left) && trial.must_leave(&DefaultCmp, left));
        assert!(rt; trial.may_leave(&DefaultCmp, 0) == (left == 0));
        // the deletion never goes before what it deletes
        assert!(rt; !trial.may_leave(&DefaultCmp, 2));
    }
    Ok(())
}

/// The empty key is a key: a file that ends with it overlaps no file that begins after it.
#[test]
fn empty_key_at_the_end(rt: HostRuntime) -> Result<()> {
    let rows: [Span; 4] = [(1, "", ""), (2, "", "a"), (2, "b", "c"), (1, "b", "b")];
    let tables = spans_of(rt.alloc(), &rows)?;
    for (chosen, taken) in [(1, 3), (8, 12), (9, 15)] {
        assert!(rt; tables_to_compact(&DefaultCmp, tables.as_slice(), 1, chosen) == taken);
    }
    Ok(())
}

/// In level 0 each file is taken that overlaps those that are taken.
#[test]
fn level_zero_widens(rt: HostRuntime) -> Result<()> {
    let rows: [Span; 5] = [
        (0, "a", "c"),
        (0, "c", "e"),
        (0, "e", "f"),
        (0, "x", "z"),
        (1, "f", "g"),
    ];
    let tables = spans_of(rt.alloc(), &rows)?;
    let taken = tables_to_compact(&DefaultCmp, tables.as_slice(), 0, 1);
    assert!(rt; taken == set_of(&[0, 1, 2, 4]));
    let taken = tables_to_compact(&DefaultCmp, tables.as_slice(), 0, 8);
    assert!(rt; taken == set_of(&[3]));
    Ok(())
}

// ---- at random

/// The keys of small stores, in order.
const KEYS: [&str; 3] = ["", "a", "b"];
/// The numbers of their entries are 1 to this one.
const NUMBERS: SequenceNumber = 9;
/// The levels of their layers, newer ones first; two tables of level 0 may overlap.
const LEVELS: [usize; 5] = [0, 0, 1, 2, 3];

#[derive(Drop)]
struct Random {
    state: u64,
}

impl Random {
    /// A number below `bound`.
    fn below(&mut self, bound: u64) -> u64 {
        self.state = self
            .state
            .wrapping_mul(6_364_136_223_846_793_005)
            .wrapping_add(1_442_695_040_888_963_407);
        self.state / 0x1_0000_0000 % bound
    }
}

/// An entry with the index of its layer and of its key.
#[derive(Clone, Copy)]
struct Layered {
    layer: usize,
    key: usize,
    sequence: SequenceNumber,
    value: Option<u8>,
}

/// Entries with numbers in a row: of each key the newer ones are in the same layer or a newer one.
fn layered_entries(alloc: Global, random: &mut Random) -> Result<Vec<Layered>> {
    let mut layers = [4, 4, 4];
    let mut entries = Vec::new(alloc);
    for sequence in 1..=NUMBERS {
        let key = random.below(4) as usize;
        if key < 3 {
            let up = random.below(3) as usize;
            layers[key] = if up < layers[key] {
                layers[key] - up
            } else {
                0
            };
            let value = if random.below(2) == 0 {
                None
            } else {
                Some(sequence as u8)
            };
            entries.push(Layered {
                layer: layers[key],
                key,
                sequence,
                value,
            })?;
        }
    }
    Ok(entries)
}

/// Adds the table of a layer's entries with these keys, if there is one.
fn add_table(
    layered: &[Layered],
    layer: usize,
    keys: (usize, usize),
    tables: &mut Vec<TableSpan<'static>>,
    entries: &mut Vec<TableEntry<'static>>,
) -> Result<()> {
    let table = tables.len();
    let mut first = 3;
    let mut last = 0;
    for entry in layered {
        if entry.layer == layer && keys.0 <= entry.key && entry.key <= keys.1 {
            first = if entry.key < first { entry.key } else { first };
            last = if entry.key > last { entry.key } else { last };
            entries.push(TableEntry {
                table,
                sequence: entry.sequence,
                key: KEYS[entry.key].as_bytes(),
                value: entry.value,
            })?;
        }
    }
    if first < 3 {
        tables.push(TableSpan {
            level: LEVELS[layer],
            first: KEYS[first].as_bytes(),
            last: KEYS[last].as_bytes(),
        })?;
    }
    Ok(())
}

/// A small store at random: in level 0 a table for each layer, in each deeper level one, or one for
/// each key.
fn small_store(
    alloc: Global,
    random: &mut Random,
) -> Result<(Vec<TableSpan<'static>>, Vec<TableEntry<'static>>)> {
    let layered = layered_entries(alloc, random)?;
    let mut tables = Vec::new(alloc);
    let mut entries = Vec::new(alloc);
    for layer in 0..5 {
        if layer < 2 || random.below(2) == 0 {
            add_table(layered.as_slice(), layer, (0, 2), &mut tables, &mut entries)?;
        } else {
            for key in 0..3 {
                add_table(
                    layered.as_slice(),
                    layer,
                    (key, key),
                    &mut tables,
                    &mut entries,
                )?;
            }
        }
    }
    Ok((tables, entries))
}

/// Some tables of a level, at random; none if it has none.
fn chosen_at_random(random: &mut Random, tables: &[TableSpan<'_>], level: usize) -> u32 {
    let mut chosen = 0;
    let mut last = 0;
    for (index, table) in tables.iter().enumerate() {
        if table.level == level {
            last = index + 1;
            if random.below(2) == 0 {
                chosen = with(chosen, index);
            }
        }
    }
    if chosen == 0 && last > 0 {
        with(0, last - 1)
    } else {
        chosen
    }
}

/// What the rule leaves, as a merge does: of each key from the newest entry on, one goes if the
/// entry just before is at or below the smallest held number, or if it is a deletion there and no
/// deeper table has the key.
fn thinned(trial: &Trial<'_, '_>) -> u32 {
    let inputs = trial.inputs();
    let mut left = 0;
    for key in KEYS.iter() {
        let mut before = None;
        for back in 0..NUMBERS {
            let sequence = NUMBERS - back;
            for (at, entry) in trial.entries.iter().enumerate() {
                if has(inputs, at) && entry.key == key.as_bytes() && entry.sequence == sequence {
                    let met = before.is_some_and(|newer| newer <= trial.smallest);
                    let last = entry.value.is_none() && trial.is_base_level_for(&DefaultCmp, at);
                    if !met && !(last && sequence <= trial.smallest) {
                        left = with(left, at);
                    }
                    before = Some(sequence);
                }
            }
        }
    }
    left
}

/// Whether two sets of entries show the same at a number.
fn show_the_same(entries: &[TableEntry<'_>], a: u32, b: u32, number: SequenceNumber) -> bool {
    KEYS.iter().all(|key| value_at(entries, a, key.as_bytes(), number)
        == value_at(entries, b, key.as_bytes(), number))
}

/// What was tried of small stores.
#[derive(Clone, Copy, Debug, PartialEq)]
struct Tried {
    compactions: usize,
    sets: usize,
    dropping: usize,
    changed_below: usize,
}

/// Tries one compaction: each set that may be left shows the same from the smallest held number on,
/// and the rule's is the one of which nothing may go.
fn try_one(rt: &impl Abort, alloc: Global, trial: &Trial<'_, '_>, tried: Tried) -> Result<Tried> {
    let all = trial.after(trial.inputs());
    let rule = thinned(trial);
    let sets = trial.sets_left(alloc, &DefaultCmp)?;
    let mut now = tried;
    let mut least = 0;
    for left in &sets {
        let after = trial.after(*left);
        for number in trial.smallest..=NUMBERS + 1 {
            assert!(rt; show_the_same(trial.entries, all, after, number));
        }
        if trial.must_leave(&DefaultCmp, *left) {
            assert!(rt; *left == rule);
            least += 1;
        }
        let below = (0..trial.smallest).any(|number| !show_the_same(
            trial.entries,
            all,
            after,
            number,
        ));
        now.changed_below += usize::from(below);
        now.dropping += usize::from(*left != trial.inputs());
    }
    assert!(rt; least == 1);
    now.compactions += 1;
    now.sets += sets.len();
    Ok(now)
}

#[test]
fn small_stores(rt: HostRuntime) -> Result<()> {
    let mut random = Random { state: 58 };
    let mut tried = Tried {
        compactions: 0,
        sets: 0,
        dropping: 0,
        changed_below: 0,
    };
    for _ in 0..4000 {
        let (tables, entries) = small_store(rt.alloc(), &mut random)?;
        let level = random.below(3) as usize;
        let chosen = chosen_at_random(&mut random, tables.as_slice(), level);
        if chosen != 0 {
            let trial = Trial {
                tables: tables.as_slice(),
                entries: entries.as_slice(),
                inputs: tables_to_compact(&DefaultCmp, tables.as_slice(), level, chosen),
                level,
                smallest: random.below(NUMBERS + 2),
            };
            tried = try_one(&rt, rt.alloc(), &trial, tried)?;
        }
    }
    let all = Tried {
        compactions: 3375,
        sets: 9549,
        dropping: 6174,
        changed_below: 3767,
    };
    assert!(rt; tried == all, "{tried:?}");
    Ok(())
}

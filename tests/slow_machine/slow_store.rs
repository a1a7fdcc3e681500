//! The slow store: batches in a list and no file. It knows every state that a store may be in by
//! what was asked and answered, and so which answers and which maps are allowed next.

use leveldb_base::cmp::UserCmp;
use leveldb_base::error::{Result, StatusCode, err};
use leveldb_base::types::{MAX_SEQUENCE_NUMBER, SequenceNumber};
use slow_history::{BorrowedPair, Entry, Landing, Move, is_walk, look_up, view_of};
use std::alloc::Global;

/// A key given a value, or none, which deletes it.
#[derive(Debug, Drop)]
pub struct Item {
    pub key: Vec<u8>,
    pub value: Option<Vec<u8>>,
}

/// The entry of an item that has this number.
fn placed_item(item: &Item, sequence: SequenceNumber) -> Result<Entry> {
    Ok(Entry {
        sequence,
        key: item.key.clone()?,
        value: item.value.clone()?,
    })
}

/// The entries of a batch whose first has this number, which leaves room for all.
pub fn placed_batch(alloc: Global, first: SequenceNumber, items: &[Item]) -> Result<Vec<Entry>> {
    let mut entries = Vec::new(alloc);
    let mut sequence = first;
    for item in items {
        entries.push(placed_item(item, sequence)?)?;
        sequence += 1;
    }
    Ok(entries)
}

/// Whether a store is open, open for reading alone, or closed.
#[derive(Clone, Copy, Debug, PartialEq, Eq)]
enum Mode {
    Open,
    Broken,
    Closed,
}

/// A snapshot that is held: its number, and the sequence at which it reads.
#[derive(Clone, Copy, Debug, PartialEq, Eq)]
struct Held {
    number: u64,
    sequence: SequenceNumber,
}

/// A state that the store may be in. Batches are named by their place in the list of all that were
/// handed on.
#[derive(Debug, Drop, PartialEq)]
struct State {
    history: Vec<usize>,
    durable: usize,
    held: Vec<Held>,
    /// The numbers that were given to snapshots since the store was opened.
    given: Vec<u64>,
    pending: Option<usize>,
    mode: Mode,
}

impl State {
    fn copy(&self) -> Result<State> {
        Ok(State {
            history: self.history.clone()?,
            durable: self.durable,
            held: self.held.clone()?,
            given: self.given.clone()?,
            pending: self.pending,
            mode: self.mode,
        })
    }

    /// In this mode, with this batch pending.
    fn in_mode(&self, mode: Mode, pending: Option<usize>) -> Result<State> {
        let mut state = self.copy()?;
        state.mode = mode;
        state.pending = pending;
        Ok(state)
    }

    /// With nothing held, in this mode, and with this batch at the end of the history, where there
    /// is one.
    fn bare(&self, mode: Mode, batch: Option<usize>) -> Result<State> {
        let mut state = self.in_mode(mode, None)?.holding_nothing();
        if let Some(batch) = batch {
            state.history.push(batch)?;
        }
        Ok(state)
    }

    /// With all of the history durable, where that is said.
    fn with_durable(mut self, all: bool) -> State {
        if all {
            self.durable = self.history.len();
        }
        self
    }

    /// With no snapshot held, and none given.
    fn holding_nothing(mut self) -> State {
        self.held.clear();
        self.given.clear();
        self
    }

    /// The sequence at which a snapshot reads that is held.
    fn sequence_of(&self, number: u64) -> Option<SequenceNumber> {
        let held = self.held.iter().find(|held| held.number == number)?;
        Some(held.sequence)
    }
}

/// Adds a state that isn't there yet.
fn add_state(states: &mut Vec<State>, state: State) -> Result<()> {
    if !states.contains(&state) {
        states.push(state)?;
    }
    Ok(())
}

/// Adds what a crash may leave of a state: each prefix that has all that was durable, of the
/// history and this batch after it.
fn add_prefixes(states: &mut Vec<State>, state: &State, batch: Option<usize>) -> Result<()> {
    let whole = state.bare(Mode::Closed, batch)?;
    for count in state.durable..=whole.history.len() {
        let mut left = whole.copy()?;
        left.history.truncate(count);
        add_state(states, left.with_durable(true))?;
    }
    Ok(())
}

/// What a look-up answers: a value or none, or that the snapshot isn't held.
#[derive(Debug, PartialEq, Drop)]
pub enum Found<'a> {
    Value(&'a [u8]),
    Nothing,
    NotHeld,
}

/// Every state that a store may be in by what was asked and answered. A call says what came, and
/// leaves the states that it allows: none where the answer was wrong.
///
/// Numbers of entries are never seen but by their order. So all states number alike, from one past
/// all numbers given before. And that a sync made more durable than was asked for is left out: a
/// crash may then leave more states, never fewer.
#[derive(Drop)]
pub struct SlowStore {
    alloc: Global,
    last: SequenceNumber,
    batches: Vec<Vec<Entry>>,
    states: Vec<State>,
}

impl SlowStore {
    /// A store that isn't there yet.
    pub fn new(alloc: Global) -> Result<SlowStore> {
        let mut states = Vec::new(alloc);
        states.push(State {
            history: Vec::new(alloc),
            durable: 0,
            held: Vec::new(alloc),
            given: Vec::new(alloc),
            pending: None,
            mode: Mode::Closed,
        })?;
        Ok(SlowStore {
            alloc,
            last: 0,
            batches: Vec::new(alloc),
            states,
        })
    }

    /// Whether any state allows all that was answered so far.
    pub fn is_possible(&self) -> bool {
        !self.states.is_empty()
    }

    /// It was opened: what was pending is in the history, or forgotten.
    pub fn opened(&mut self) -> Result<()> {
        let mut states = Vec::new(self.alloc);
        for state in &self.states {
            if state.mode == Mode::Closed {
                add_state(&mut states, state.bare(Mode::Open, None)?)?;
                if state.pending.is_some() {
                    add_state(&mut states, state.bare(Mode::Open, state.pending)?)?;
                }
            }
        }
        self.states = states;
        Ok(())
    }

    /// Keeps a batch of these items, and answers its place.
    fn place(&mut self, items: &[Item]) -> Result<usize> {
        let count = items.len() as u64;
        if self.last >= MAX_SEQUENCE_NUMBER || count > MAX_SEQUENCE_NUMBER - self.last {
            return err(self.alloc, StatusCode::NotSupported, "no number is left");
        }
        let place = self.batches.len();
        let batch = placed_batch(self.alloc, self.last + 1, items)?;
        self.batches.push(batch)?;
        self.last += count;
        Ok(place)
    }

    /// A write was answered Ok.
    pub fn wrote(&mut self, items: &[Item], sync: bool) -> Result<()> {
        let batch = self.place(items)?;
        let mut states = Vec::new(self.alloc);
        for state in &self.states {
            if state.mode == Mode::Open {
                let mut written = state.copy()?;
                written.history.push(batch)?;
                add_state(&mut states, written.with_durable(sync))?;
            }
        }
        self.states = states;
        Ok(())
    }

    /// A write was refused: nothing changed, or where the device or memory failed, the store may be
    /// broken, with or without the batch pending.
    pub fn refused_write(&mut self, items: &[Item], may_break: bool) -> Result<()> {
        let batch = self.place(items)?;
        let mut states = Vec::new(self.alloc);
        for state in &self.states {
            if state.mode == Mode::Open {
                add_state(&mut states, state.copy()?)?;
                if may_break {
                    add_state(&mut states, state.in_mode(Mode::Broken, None)?)?;
                    add_state(&mut states, state.in_mode(Mode::Broken, Some(batch))?)?;
                }
            }
        }
        self.states = states;
        Ok(())
    }

    /// A flush was answered Ok.
    pub fn flushed(&mut self) -> Result<()> {
        let mut states = Vec::new(self.alloc);
        for state in &self.states {
            if state.mode == Mode::Open {
                add_state(&mut states, state.copy()?.with_durable(true))?;
            }
        }
        self.states = states;
        Ok(())
    }

    /// A compaction was answered Ok: it changes nothing that is answered.
    pub fn compacted(&mut self) -> Result<()> {
        self.keep_mode(Mode::Open)
    }

    /// A compaction was refused: nothing changed, or the store is broken, with nothing pending.
    pub fn refused_compaction(&mut self) -> Result<()> {
        let mut states = Vec::new(self.alloc);
        for state in &self.states {
            if state.mode == Mode::Open {
                add_state(&mut states, state.copy()?)?;
                add_state(&mut states, state.in_mode(Mode::Broken, None)?)?;
            }
        }
        self.states = states;
        Ok(())
    }

    /// A flush was refused by the device, or a close for any cause: the store is broken.
    pub fn broke(&mut self) -> Result<()> {
        let mut states = Vec::new(self.alloc);
        for state in &self.states {
            if state.mode == Mode::Open {
                add_state(&mut states, state.in_mode(Mode::Broken, None)?)?;
            }
        }
        self.states = states;
        Ok(())
    }

    /// A write, a flush, a close or a compaction was refused since the store was broken.
    pub fn was_broken(&mut self) -> Result<()> {
        self.keep_mode(Mode::Broken)
    }

    /// A request was refused since the store was closed.
    pub fn was_closed(&mut self) -> Result<()> {
        self.keep_mode(Mode::Closed)
    }

    fn keep_mode(&mut self, mode: Mode) -> Result<()> {
        let mut states = Vec::new(self.alloc);
        for state in &self.states {
            if state.mode == mode {
                states.push(state.copy()?)?;
            }
        }
        self.states = states;
        Ok(())
    }

    /// Something was answered that no store answers.
    pub fn was_impossible(&mut self) {
        self.states.clear();
    }

    /// A close was answered Ok.
    pub fn closed(&mut self) -> Result<()> {
        self.flushed()?;
        self.abandoned()
    }

    /// It was abandoned, however that was answered.
    pub fn abandoned(&mut self) -> Result<()> {
        let mut states = Vec::new(self.alloc);
        for state in &self.states {
            let closed = state.in_mode(Mode::Closed, state.pending)?;
            add_state(&mut states, closed.holding_nothing())?;
        }
        self.states = states;
        Ok(())
    }

    /// A crash came, with no write in flight.
    pub fn crashed(&mut self) -> Result<()> {
        let mut states = Vec::new(self.alloc);
        for state in &self.states {
            add_prefixes(&mut states, state, state.pending)?;
        }
        self.states = states;
        Ok(())
    }

    /// A crash came inside a write.
    pub fn crashed_in_write(&mut self, items: &[Item]) -> Result<()> {
        let batch = self.place(items)?;
        let mut states = Vec::new(self.alloc);
        for state in &self.states {
            let in_hand = match state.mode {
                Mode::Open => Some(batch),
                Mode::Broken | Mode::Closed => state.pending,
            };
            add_prefixes(&mut states, state, in_hand)?;
        }
        self.states = states;
        Ok(())
    }

    /// A snapshot was given out under this number, which wasn't given before.
    pub fn gave_snapshot(&mut self, number: u64) -> Result<()> {
        let sequence = self.last;
        let mut states = Vec::new(self.alloc);
        for state in &self.states {
            if state.mode != Mode::Closed && !state.given.contains(&number) {
                let mut more = state.copy()?;
                more.held.push(Held { number, sequence })?;
                more.given.push(number)?;
                states.push(more)?;
            }
        }
        self.states = states;
        Ok(())
    }

    /// A snapshot was released.
    pub fn released(&mut self, number: u64) -> Result<()> {
        let mut states = Vec::new(self.alloc);
        for state in &self.states {
            if state.sequence_of(number).is_some() {
                let mut fewer = state.copy()?;
                fewer.held.retain(|held| held.number != number);
                states.push(fewer)?;
            }
        }
        self.states = states;
        Ok(())
    }

    /// A request of this snapshot was refused since the store doesn't hold it.
    pub fn was_not_held(&mut self, number: u64) -> Result<()> {
        let mut states = Vec::new(self.alloc);
        for state in &self.states {
            if state.sequence_of(number).is_none() {
                states.push(state.copy()?)?;
            }
        }
        self.states = states;
        Ok(())
    }

    /// A look-up was answered so, now or at a snapshot.
    pub fn found(&mut self, at: Option<u64>, key: &[u8], answer: &Found<'_>) -> Result<()> {
        let mut states = Vec::new(self.alloc);
        for state in &self.states {
            if state.mode != Mode::Closed && self.look(state, at, key)? == *answer {
                states.push(state.copy()?)?;
            }
        }
        self.states = states;
        Ok(())
    }

    /// A walk over all showed these pairs, now or at a snapshot.
    pub fn showed<C: UserCmp>(
        &mut self,
        cmp: &C,
        at: Option<u64>,
        pairs: &[BorrowedPair<'_>],
    ) -> Result<()> {
        let mut states = Vec::new(self.alloc);
        for state in &self.states {
            if state.mode != Mode::Closed && self.shows(cmp, state, at, pairs)? {
                states.push(state.copy()?)?;
            }
        }
        self.states = states;
        Ok(())
    }

    /// Moves of an iterator, from no position on, led there, one after another, now or at a
    /// snapshot.
    pub fn walked<C: UserCmp>(
        &mut self,
        cmp: &C,
        at: Option<u64>,
        moves: &[Move<'_>],
        landings: &[Landing<'_>],
    ) -> Result<()> {
        let mut states = Vec::new(self.alloc);
        for state in &self.states {
            if state.mode != Mode::Closed && self.walks(cmp, state, at, moves, landings)? {
                states.push(state.copy()?)?;
            }
        }
        self.states = states;
        Ok(())
    }

    /// The maps that an open store may now show, each once.
    pub fn maps<C: UserCmp>(&self, cmp: &C) -> Result<Vec<Vec<BorrowedPair<'_>>>> {
        let mut maps = Vec::new(self.alloc);
        for state in &self.states {
            let entries = self.entries_of(state)?;
            let map = view_of(self.alloc, cmp, entries.as_slice(), self.last)?;
            if state.mode != Mode::Closed && !maps.contains(&map) {
                maps.push(map)?;
            }
        }
        Ok(maps)
    }

    fn entries_of(&self, state: &State) -> Result<Vec<&Entry>> {
        let mut entries = Vec::new(self.alloc);
        for place in &state.history {
            if let Some(batch) = self.batches.get(*place) {
                for entry in batch {
                    entries.push(entry)?;
                }
            }
        }
        Ok(entries)
    }

    fn sequence_at(&self, state: &State, at: Option<u64>) -> Option<SequenceNumber> {
        match at {
            None => Some(self.last),
            Some(number) => state.sequence_of(number),
        }
    }

    fn look(&self, state: &State, at: Option<u64>, key: &[u8]) -> Result<Found<'_>> {
        let Some(sequence) = self.sequence_at(state, at) else {
            return Ok(Found::NotHeld);
        };
        let entries = self.entries_of(state)?;
        Ok(match look_up(entries.as_slice(), sequence, key) {
            Some(value) => Found::Value(value),
            None => Found::Nothing,
        })
    }

    /// The map that a state shows, now or at a snapshot, if it holds that.
    fn map_at<C: UserCmp>(
        &self,
        cmp: &C,
        state: &State,
        at: Option<u64>,
    ) -> Result<Option<Vec<BorrowedPair<'_>>>> {
        let Some(sequence) = self.sequence_at(state, at) else {
            return Ok(None);
        };
        let entries = self.entries_of(state)?;
        let map = view_of(self.alloc, cmp, entries.as_slice(), sequence)?;
        Ok(Some(map))
    }

    fn shows<C: UserCmp>(
        &self,
        cmp: &C,
        state: &State,
        at: Option<u64>,
        pairs: &[BorrowedPair<'_>],
    ) -> Result<bool> {
        Ok(match self.map_at(cmp, state, at)? {
            Some(map) => map.as_slice() == pairs,
            None => false,
        })
    }

    fn walks<C: UserCmp>(
        &self,
        cmp: &C,
        state: &State,
        at: Option<u64>,
        moves: &[Move<'_>],
        landings: &[Landing<'_>],
    ) -> Result<bool> {
        Ok(match self.map_at(cmp, state, at)? {
            Some(map) => is_walk(cmp, &map, moves, landings),
            None => false,
        })
    }
}

//! A sink of an information log that waits for one line.
use leveldb_base::error::{Result, Status};
use leveldb_env::infolog::{InfoSink, Logger};
use std::alloc::{AllocError, Global};
use std::cell::Cell;
use std::rc::Rc;

/// A sink that counts its lines, and those that are this one.
#[derive(Drop)]
struct Expects {
    line: &'static str,
    count: Rc<Cell<usize>>,
    right: Rc<Cell<usize>>,
}

impl InfoSink for Expects {
    fn write(&mut self, line: &[u8]) -> Result<()> {
        self.count.set(self.count.get().saturating_add(1));
        if line == self.line.as_bytes() {
            self.right.set(self.right.get().saturating_add(1));
        }
        Ok(())
    }
}

/// How many lines a log was given, and how many of them were the one that was expected.
#[derive(Drop)]
pub struct Lines {
    count: Rc<Cell<usize>>,
    right: Rc<Cell<usize>>,
}

impl Lines {
    pub fn new(alloc: Global) -> Result<Lines> {
        Ok(Lines {
            count: Rc::new(alloc, Cell::new(0))?,
            right: Rc::new(alloc, Cell::new(0))?,
        })
    }

    /// A log that expects this line.
    pub fn log(&self, alloc: Global, line: &'static str) -> Result<Logger> {
        let sink = Expects {
            line,
            count: self.count.clone()?,
            right: self.right.clone()?,
        };
        Ok(Logger(Box::new(alloc, sink)?))
    }

    /// All lines, and those that were right.
    pub fn counts(&self) -> (usize, usize) {
        (self.count.get(), self.right.get())
    }

    /// Whether the log was given the line, once, and no other. Err: it was given none, as where the line finds no memory.
    pub fn are_right(&self) -> Result<bool> {
        match self.counts() {
            (0, _) => Err(Status::from(AllocError)),
            counts => Ok(counts == (1, 1)),
        }
    }
}

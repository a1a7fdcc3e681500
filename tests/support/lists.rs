//! An iterator over a list in memory.
use bytes::Bytes;
use leveldb_base::cmp::Cmp;
use leveldb_base::error::Result;
use leveldb_base::types::LdbIterator;

/// A list in memory that a comparator sorts, and the index of the pair that the iterator is at.
#[derive(Drop)]
pub struct Listed<C> {
    cmp: C,
    pairs: Vec<(Bytes, Bytes)>,
    at: Option<usize>,
}

impl<C> Listed<C> {
    /// An iterator over these pairs, whose keys rise, at no position.
    pub fn new(cmp: C, pairs: Vec<(Bytes, Bytes)>) -> Listed<C> {
        Listed {
            cmp,
            pairs,
            at: None,
        }
    }
}

impl<C: Cmp> LdbIterator for Listed<C> {
    ghost pairs = { ? };

    ghost position = { ? };

    ghost order = { ? };

    ghost fails = { ? };

    fn advance(&mut self) -> Result<bool> {
        let next = self.at.map_or(0, |at| at + 1);
        self.at = Some(next).filter(|next| *next < self.pairs.len());
        Ok(self.at.is_some())
    }

    fn prev(&mut self) -> Result<bool> {
        self.at = match self.at {
            Some(at) if at > 0 => Some(at - 1),
            _ => None,
        };
        Ok(self.at.is_some())
    }

    fn seek(&mut self, key: &[u8]) -> Result<()> {
        self.at = None;
        for (index, pair) in self.pairs.iter().enumerate() {
            if self.cmp.cmp(pair.0.as_slice(), key).is_ge() {
                self.at = Some(index);
                break;
            }
        }
        Ok(())
    }

    fn seek_to_last(&mut self) -> Result<()> {
        self.at = self.pairs.len().checked_sub(1);
        Ok(())
    }

    fn current(&self) -> Option<(&[u8], &[u8])> {
        let (key, value) = self.pairs.as_slice().get(self.at?)?;
        Some((key.as_slice(), value.as_slice()))
    }

    fn reset(&mut self) {
        self.at = None;
    }

    fn valid(&self) -> bool {
        self.at.is_some()
    }

    ghost in_range = { ? };
}

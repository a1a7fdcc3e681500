//! Marks around calls that may find no memory.
use std::alloc::Global;

// So many bytes no other request asks for: tools/refusals.c takes them for marks.
const BEGINS: usize = 7_919_123;

const ENDS: usize = 7_919_125;

/// Says by requests for memory which others are those of a call: `./test` refuses one of each call
/// then, and no other.
#[derive(Drop)]
pub struct Marks {
    alloc: Global,
    // what the last mark was given, so that no compiler leaves it out
    last: Vec<u8>,
}

impl Marks {
    pub fn new(alloc: Global) -> Marks {
        let last = Vec::new(alloc);
        Marks { alloc, last }
    }

    /// A call begins.
    pub fn begin(&mut self) {
        let _ = self.is_given(BEGINS);
    }

    /// A call has ended. Returns whether one of its requests was refused.
    pub fn end(&mut self) -> bool {
        !self.is_given(ENDS)
    }

    fn is_given(&mut self, count: usize) -> bool {
        match Vec::with_capacity(self.alloc, count) {
            Ok(bytes) => {
                self.last = bytes;
                true
            }
            Err(_) => false,
        }
    }
}

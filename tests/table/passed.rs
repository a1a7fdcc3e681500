//! What a walk over a table went over. Definitions name it, so it isn't for tests alone.

use bytes::Bytes;

/// The pairs over which a walk went forward, and then back.
#[derive(Drop)]
pub struct BothWays {
    pub forward: Vec<(Bytes, Bytes)>,
    pub back: Vec<(Bytes, Bytes)>,
}

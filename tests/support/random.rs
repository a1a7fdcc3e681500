//! Numbers that look random.

/// Numbers that look random, the same in each run.
#[derive(Drop)]
pub struct Random(pub u64);

impl Random {
    /// The next number, below this one, which isn't 0.
    pub fn below(&mut self, bound: u64) -> u64 {
        self.0 = self
            .0
            .wrapping_mul(6_364_136_223_846_793_005)
            .wrapping_add(1_442_695_040_888_963_407);
        (self.0 >> 33) % bound
    }
}

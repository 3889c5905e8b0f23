//! What several tests use.

/// Random numbers (xorshift), the same in each run.
pub struct Random(u64);

impl Random {
    /// The numbers of a seed that isn't 0.
    pub fn new(seed: u64) -> Random {
        Random(seed)
    }

    pub fn below(&mut self, limit: usize) -> usize {
        self.0 ^= self.0 << 13;
        self.0 ^= self.0 >> 7;
        self.0 ^= self.0 << 17;
        ((self.0 >> 16) % limit as u64) as usize
    }
}

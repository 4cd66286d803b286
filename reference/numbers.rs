//! The number generator behind every drawn vector.

/// A linear congruential generator over 64 bits of state.
pub struct Numbers {
    state: u64,
}

impl Numbers {
    const FACTOR: u64 = 6364136223846793005;
    const SUMMAND: u64 = 1442695040888963407;

    /// The stream that starts at `seed`.
    pub fn new(seed: u64) -> Self {
        Numbers { state: seed }
    }

    /// The next number: the upper 31 bits of the stepped state.
    fn next(&mut self) -> u64 {
        self.state = self
            .state
            .wrapping_mul(Self::FACTOR)
            .wrapping_add(Self::SUMMAND);
        self.state >> 33
    }

    /// The next number, reduced modulo `limit`.
    pub fn below(&mut self, limit: u64) -> u64 {
        self.next() % limit
    }

    /// The same draw as `below`, for sizes and indices in memory.
    pub fn index_below(&mut self, limit: usize) -> usize {
        self.below(limit as u64) as usize
    }
}

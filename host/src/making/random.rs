//! A generator with a fixed seed (splitmix64), so that each run of the tests draws the same
//! telegrams; no rule speaks of it.

/// The state of the generator.
pub struct Random {
    state: u64,
}

impl Random {
    /// A generator that draws the same numbers for the same seed.
    pub fn seeded(seed: u64) -> Random {
        Random { state: seed }
    }

    /// The next 64 bits.
    pub fn draw(&mut self) -> u64 {
        self.state = self.state.wrapping_add(0x9E37_79B9_7F4A_7C15);
        let mut mixed = self.state;
        mixed = (mixed ^ (mixed >> 30)).wrapping_mul(0xBF58_476D_1CE4_E5B9);
        mixed = (mixed ^ (mixed >> 27)).wrapping_mul(0x94D0_49BB_1331_11EB);
        mixed ^ (mixed >> 31)
    }

    /// A number under the limit; 0 where the limit is 0.
    pub fn below(&mut self, limit: usize) -> usize {
        (self.draw() % limit.max(1) as u64) as usize
    }

    /// A number from the first to the last, both included.
    pub fn from_to(&mut self, first: usize, last: usize) -> usize {
        first + self.below(last.saturating_sub(first) + 1)
    }

    /// True once in this many draws, on average.
    pub fn one_in(&mut self, draws: usize) -> bool {
        self.below(draws) == 0
    }

    /// Any byte.
    pub fn byte(&mut self) -> u8 {
        self.draw() as u8
    }

    /// One of the bytes given; NUL where there are none.
    pub fn one_of(&mut self, bytes: &[u8]) -> u8 {
        let index = self.below(bytes.len());
        bytes.get(index).copied().unwrap_or(0)
    }
}

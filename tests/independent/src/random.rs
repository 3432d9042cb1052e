//! A small deterministic source of random numbers: splitmix64. The same seed
//! gives the same numbers on every machine.

/// The state.
#[derive(Clone, Debug)]
pub struct Random {
    state: u64,
}

impl Random {
    pub fn new(seed: u64) -> Random {
        Random { state: seed }
    }

    /// The next 64 bits.
    pub fn bits(&mut self) -> u64 {
        self.state = self.state.wrapping_add(0x9e37_79b9_7f4a_7c15);
        let mut z = self.state;
        z = (z ^ (z >> 30)).wrapping_mul(0xbf58_476d_1ce4_e5b9);
        z = (z ^ (z >> 27)).wrapping_mul(0x94d0_49bb_1331_11eb);
        z ^ (z >> 31)
    }

    /// A number below `bound`, which is not 0.
    pub fn below(&mut self, bound: usize) -> usize {
        let bound = u64::try_from(bound).expect("a bound of at most 64 bits");
        usize::try_from(self.bits() % bound).expect("it is below a usize")
    }

    /// A number from `low` to `high`, both included.
    pub fn between(&mut self, low: usize, high: usize) -> usize {
        low + self.below(high - low + 1)
    }

    /// True in so many of a hundred cases.
    pub fn percent(&mut self, chance: usize) -> bool {
        self.below(100) < chance
    }

    /// One of several.
    pub fn pick<T: Copy>(&mut self, from: &[T]) -> T {
        from[self.below(from.len())]
    }

    pub fn byte(&mut self) -> u8 {
        self.bits().to_le_bytes()[0]
    }

    pub fn word(&mut self) -> u16 {
        let bytes = self.bits().to_le_bytes();
        u16::from_le_bytes([bytes[0], bytes[1]])
    }

    /// A 16-bit number with the edges more likely than by chance.
    pub fn value(&mut self) -> u16 {
        match self.below(4) {
            0 => self.pick(&[0, 1, 2, 255, 256, 257, 32_767, 32_768, 65_534, 65_535]),
            1 => self.word() % 8,
            _ => self.word(),
        }
    }
}

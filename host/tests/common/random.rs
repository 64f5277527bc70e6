//! A small seeded generator of numbers (SplitMix64), so that each case can be
//! made again from the seed and its own number.

pub struct Random {
    state: u64,
}

impl Random {
    pub fn new(seed: u64) -> Random {
        Random { state: seed }
    }

    /// The generator for one case.
    pub fn for_case(seed: u64, case: u64) -> Random {
        let mut start = Random::new(seed);
        Random::new(start.next() ^ case.wrapping_mul(0xD134_2543_DE82_EF95))
    }

    pub fn next(&mut self) -> u64 {
        self.state = self.state.wrapping_add(0x9E37_79B9_7F4A_7C15);
        let mut x = self.state;
        x = (x ^ (x >> 30)).wrapping_mul(0xBF58_476D_1CE4_E5B9);
        x = (x ^ (x >> 27)).wrapping_mul(0x94D0_49BB_1331_11EB);
        x ^ (x >> 31)
    }

    /// A number under the bound.
    pub fn below(&mut self, bound: usize) -> usize {
        assert!(bound > 0);
        (((self.next() >> 32) * bound as u64) >> 32) as usize
    }

    /// A number from the first to the last, both included.
    pub fn between(&mut self, first: usize, last: usize) -> usize {
        first + self.below(last - first + 1)
    }

    /// True about `percent` times in a hundred.
    pub fn percent(&mut self, percent: usize) -> bool {
        self.below(100) < percent
    }

    pub fn pick<T: Copy>(&mut self, choices: &[T]) -> T {
        choices[self.below(choices.len())]
    }

    pub fn byte(&mut self) -> u8 {
        (self.next() >> 56) as u8
    }

    pub fn bytes(&mut self, count: usize) -> Vec<u8> {
        (0..count).map(|_| self.byte()).collect()
    }

    /// Bytes without a zero among them.
    pub fn text(&mut self, count: usize) -> Vec<u8> {
        (0..count).map(|_| self.byte().max(1)).collect()
    }

    /// A whole number with many edge values.
    pub fn i32(&mut self) -> i32 {
        match self.below(4) {
            0 => self.pick(&[0, 1, -1, i32::MIN, i32::MAX]),
            1 => self.below(100) as i32,
            _ => self.next() as i32,
        }
    }
}

//! A small random source (splitmix64), the same on every machine.

/// Seeded, so that a test tries the same cases each time.
pub struct Random(u64);

impl Random {
    pub fn seeded(seed: u64) -> Random {
        Random(seed)
    }

    pub fn next(&mut self) -> u64 {
        self.0 = self.0.wrapping_add(0x9E37_79B9_7F4A_7C15);
        let mut z = self.0;
        z = (z ^ (z >> 30)).wrapping_mul(0xBF58_476D_1CE4_E5B9);
        z = (z ^ (z >> 27)).wrapping_mul(0x94D0_49BB_1331_11EB);
        z ^ (z >> 31)
    }

    /// A number below `limit`, which isn't 0.
    pub fn below(&mut self, limit: usize) -> usize {
        (self.next() % limit as u64) as usize
    }

    pub fn byte(&mut self) -> u8 {
        self.next() as u8
    }

    pub fn bytes(&mut self, count: usize) -> Vec<u8> {
        (0..count).map(|_| self.byte()).collect()
    }

    pub fn up_to(&mut self, most: u8) -> u8 {
        self.below(usize::from(most) + 1) as u8
    }

    /// True one time in `times`.
    pub fn one_in(&mut self, times: usize) -> bool {
        self.below(times) == 0
    }

    pub fn pick<T: Copy>(&mut self, choices: &[T]) -> T {
        choices[self.below(choices.len())]
    }

    /// An index below `count`: the first, the last or any.
    pub fn index(&mut self, count: usize) -> usize {
        match self.below(3) {
            0 => 0,
            1 => count - 1,
            _ => self.below(count),
        }
    }

    /// One of the bits that are set in `bits`, which aren't all 0.
    pub fn bit_of(&mut self, bits: u8) -> u8 {
        let set: Vec<u8> = (0..8).map(|n| 1 << n).filter(|n| bits & n != 0).collect();
        self.pick(&set)
    }
}

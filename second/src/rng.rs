//! A small generator of random numbers (splitmix64).
//!
//! The test inputs must be the same on every machine for the same arguments,
//! so the numbers come from here and not from the clock or the system.

pub struct Rng {
    state: u64,
}

impl Rng {
    /// Starts from several numbers at once. Each one is stirred in by itself,
    /// so that neighbouring seeds and indexes give unrelated inputs.
    pub fn from_numbers(numbers: &[u64]) -> Rng {
        let mut rng = Rng { state: 0x5EED };
        for number in numbers {
            let stirred = rng.word();
            rng.state = stirred ^ number.wrapping_mul(0xD6E8_FEB8_6659_FD93);
        }
        rng
    }

    pub fn word(&mut self) -> u64 {
        self.state = self.state.wrapping_add(0x9E37_79B9_7F4A_7C15);
        let mut z = self.state;
        z = (z ^ (z >> 30)).wrapping_mul(0xBF58_476D_1CE4_E5B9);
        z = (z ^ (z >> 27)).wrapping_mul(0x94D0_49BB_1331_11EB);
        z ^ (z >> 31)
    }

    /// A number from 0 to `limit - 1`. The slight unevenness of the remainder
    /// does not matter for test inputs.
    pub fn below(&mut self, limit: usize) -> usize {
        (self.word() % limit as u64) as usize
    }

    /// A number from `low` to `high`, both included.
    pub fn between(&mut self, low: usize, high: usize) -> usize {
        low + self.below(high - low + 1)
    }

    pub fn byte(&mut self) -> u8 {
        self.word() as u8
    }

    pub fn percent(&mut self, chance: usize) -> bool {
        self.below(100) < chance
    }

    pub fn pick<T: Copy>(&mut self, list: &[T]) -> T {
        list[self.below(list.len())]
    }
}

//! A small xorshift generator, so that a seed names a script for good.

pub struct Random(u64);

impl Random {
    /// The state must not be 0; the multiplication keeps near seeds apart.
    pub fn new(seed: u64) -> Random {
        let mut random = Random(seed.wrapping_mul(0x9E37_79B9_7F4A_7C15) | 1);
        for _ in 0..8 {
            random.step();
        }
        random
    }

    fn step(&mut self) -> u64 {
        self.0 ^= self.0 << 13;
        self.0 ^= self.0 >> 7;
        self.0 ^= self.0 << 17;
        self.0
    }

    /// A number from 0 to below `end`; the high bits are the better mixed.
    pub fn below(&mut self, end: u64) -> u64 {
        (self.step() >> 20) % end
    }

    /// A number from `low` to `high`, both possible.
    pub fn between(&mut self, low: u16, high: u16) -> u16 {
        low + self.below((high - low) as u64 + 1) as u16
    }

    pub fn bytes(&mut self, length: usize) -> Vec<u8> {
        (0..length).map(|_| self.below(256) as u8).collect()
    }

    /// True once in `times` on average.
    pub fn one_in(&mut self, times: u64) -> bool {
        self.below(times) == 0
    }

    pub fn pick<T: Copy>(&mut self, choices: &[T]) -> T {
        choices[self.below(choices.len() as u64) as usize]
    }
}

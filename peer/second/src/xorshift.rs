//! Numbers that look random and are the same for the same seed, so that a failing test can be run again.

/// Marsaglia's 64-bit xorshift.
pub struct Xorshift(u64);

impl Xorshift {
    /// A seed of 0 would give only zeros, so its lowest bit is set.
    pub fn new(seed: u64) -> Self {
        let mut random = Xorshift(seed | 1);
        // The first numbers of small seeds have few ones.
        for _ in 0..16 {
            random.next();
        }
        random
    }

    #[allow(clippy::should_implement_trait)]
    pub fn next(&mut self) -> u64 {
        self.0 ^= self.0 << 13;
        self.0 ^= self.0 >> 7;
        self.0 ^= self.0 << 17;
        self.0
    }

    /// A number below a limit. The high bits are used, as they are the better mixed ones.
    pub fn below(&mut self, limit: usize) -> usize {
        (self.next() >> 16) as usize % limit
    }

    pub fn number(&mut self) -> u32 {
        (self.next() >> 32) as u32
    }

    pub fn chance(&mut self) -> bool {
        self.below(2) == 1
    }

    pub fn bytes<const N: usize>(&mut self) -> [u8; N] {
        std::array::from_fn(|_| self.below(256) as u8)
    }
}

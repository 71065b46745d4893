//! Marsaglia's 64-bit xorshift generator: every run with the same seed sees the
//! same numbers.

pub struct Xorshift(u64);

const FIXED_SEED: u64 = 0x9e37_79b9_7f4a_7c15;

impl Default for Xorshift {
    fn default() -> Self {
        Xorshift(FIXED_SEED)
    }
}

impl Xorshift {
    /// Other numbers for every other seed.
    pub fn seeded(seed: u64) -> Xorshift {
        // Seeds side by side are spread, and no state may be 0.
        let spread = seed.wrapping_add(1).wrapping_mul(FIXED_SEED);
        let mut random = Xorshift(if spread == 0 { FIXED_SEED } else { spread });
        for _ in 0..8 {
            random.pattern();
        }
        random
    }

    /// A pattern out of all 2^32.
    pub fn pattern(&mut self) -> u32 {
        self.0 ^= self.0 << 13;
        self.0 ^= self.0 >> 7;
        self.0 ^= self.0 << 17;
        // The upper half is the better mixed one.
        (self.0 >> 32) as u32
    }

    /// A float between -limit and limit.
    pub fn within(&mut self, limit: f32) -> f32 {
        let unit = f64::from(self.pattern()) / f64::from(u32::MAX);
        ((unit * 2.0 - 1.0) * f64::from(limit)) as f32
    }
}

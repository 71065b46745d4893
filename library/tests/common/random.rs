//! Numbers to try the calls on, the same in every run.

/// Splitmix64 by Steele, Lea and Flood: a counter that is mixed.
#[derive(Default)]
pub struct Random(u64);

impl Random {
    /// Each of the 2^32 as likely as any other.
    pub fn bits(&mut self) -> u32 {
        self.0 = self.0.wrapping_add(0x9e37_79b9_7f4a_7c15);
        let mixed = (self.0 ^ (self.0 >> 30)).wrapping_mul(0xbf58_476d_1ce4_e5b9);
        let mixed = (mixed ^ (mixed >> 27)).wrapping_mul(0x94d0_49bb_1331_11eb);
        ((mixed ^ (mixed >> 31)) >> 32) as u32
    }

    /// Of all sizes.
    pub fn any_number(&mut self) -> i32 {
        let shift = self.bits() % i32::BITS;
        self.bits().cast_signed() >> shift
    }
}

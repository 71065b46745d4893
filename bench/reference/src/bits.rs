//! Floats and integers as 32-bit patterns, so that all functions compare alike.

/// The one pattern that stands for every NaN answer.
const CANONICAL_NAN: u32 = 0x7fc0_0000;

pub trait Bits: Copy {
    fn from_pattern(pattern: u32) -> Self;
    /// Every NaN has the same pattern here.
    fn to_pattern(self) -> u32;
}

impl Bits for f32 {
    #[inline]
    fn from_pattern(pattern: u32) -> Self {
        f32::from_bits(pattern)
    }

    #[inline]
    fn to_pattern(self) -> u32 {
        if self.is_nan() {
            CANONICAL_NAN
        } else {
            self.to_bits()
        }
    }
}

impl Bits for i32 {
    #[inline]
    fn from_pattern(pattern: u32) -> Self {
        pattern as i32
    }

    #[inline]
    fn to_pattern(self) -> u32 {
        self as u32
    }
}

/// Calls `function` on the value that `pattern` stands for.
#[inline]
pub fn on_bits<A: Bits, R: Bits>(function: impl Fn(A) -> R, pattern: u32) -> u32 {
    function(A::from_pattern(pattern)).to_pattern()
}

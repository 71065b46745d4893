//! The conversions that `world` uses.

pub trait Cast {
    fn assert_i32(self) -> i32;
}

impl Cast for u32 {
    fn assert_i32(self) -> i32 {
        i32::try_from(self).expect("a number above the range of i32")
    }
}

pub trait CastFloat {
    fn round_to_i32(self) -> i32;
    fn trunc_to_i32(self) -> i32;
}

impl CastFloat for f32 {
    fn round_to_i32(self) -> i32 {
        self.round() as i32
    }

    fn trunc_to_i32(self) -> i32 {
        self.trunc() as i32
    }
}

//! The values at which roundings and conversions go wrong most easily.

use std::f32::consts::PI;

/// Both signs of each are taken.
const SIZES: [f32; 24] = [
    0.0,
    // Subnormal, the least and the largest; then the least that is not.
    f32::from_bits(1),
    f32::from_bits(0x007f_ffff),
    f32::MIN_POSITIVE,
    // Halves of a 256th and of 1, and the float below.
    1.0 / 512.0,
    3.0 / 512.0,
    f32::from_bits(0x3eff_ffff),
    0.5,
    2.5,
    17.5,
    PI,
    // The last float with a half of a 256th, and the last with a half of 1.
    32768.0 - 1.0 / 512.0,
    8388607.5,
    // 2^22, 2^24 with neighbours, 2^30.
    4194304.0,
    4194304.5,
    16777215.0,
    16777216.0,
    16777218.0,
    1073741824.0,
    // The last float below 2^31, then 2^31 and beyond.
    2147483520.0,
    2147483648.0,
    1e30,
    f32::INFINITY,
    f32::NAN,
];

pub fn floats() -> Vec<f32> {
    SIZES.into_iter().flat_map(|size| [size, -size]).collect()
}

/// What a record's fields are set to.
pub const INTEGERS: [i32; 31] = [
    0,
    1,
    -1,
    2,
    -2,
    17,
    -18,
    127,
    128,
    -255,
    256,
    -257,
    804,
    -804,
    (1 << 22) - 1,
    1 << 22,
    // From 2^24 on not every integer is a float, and ties go to even.
    (1 << 24) - 1,
    1 << 24,
    (1 << 24) + 1,
    -(1 << 24) - 1,
    (1 << 24) + 3,
    -(1 << 24) - 3,
    1 << 30,
    -(1 << 30),
    // The upper end rounds to 2^31 from its last 64 values on.
    i32::MAX - 64,
    i32::MAX - 63,
    i32::MAX - 1,
    i32::MAX,
    i32::MIN + 64,
    i32::MIN + 1,
    i32::MIN,
];

//! The root and the conversions. The crate `reference` says in plain Rust what
//! each of them means.

use crate::ffi;

/// The square root, correctly rounded.
#[inline]
pub fn root(x: f32) -> f32 {
    ffi::ponguriena_root(x)
}

/// The nearest integer, halves away from zero; saturates, and NaN gives 0.
#[inline]
pub fn round_to_i32(x: f32) -> i32 {
    ffi::ponguriena_round_to_i32(x)
}

/// The integer part; saturates, and NaN gives 0.
#[inline]
pub fn trunc_to_i32(x: f32) -> i32 {
    ffi::ponguriena_trunc_to_i32(x)
}

/// The nearest float, ties to even.
#[inline]
pub fn i32_to_f32(n: i32) -> f32 {
    ffi::ponguriena_i32_to_f32(n)
}

/// A tuning value, which is stored in hundredths.
#[inline]
pub fn hundredths_to_f32(n: i32) -> f32 {
    ffi::ponguriena_hundredths_to_f32(n)
}

/// The float of the nearest integer.
#[inline]
pub fn quantize(x: f32) -> f32 {
    ffi::ponguriena_quantize(x)
}

/// The nearest number of 256ths, the unit in which velocities are sent.
#[inline]
pub fn to_256ths(v: f32) -> i32 {
    ffi::ponguriena_to_256ths(v)
}

/// The float of a number of 256ths.
#[inline]
pub fn from_256ths(n: i32) -> f32 {
    ffi::ponguriena_from_256ths(n)
}

/// The float of the nearest number of 256ths.
#[inline]
pub fn quantize_256ths(v: f32) -> f32 {
    ffi::ponguriena_quantize_256ths(v)
}

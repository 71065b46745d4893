//! What each function of the port means, by the machine's own square root and
//! conversions and the rules of document 01, and the inputs on which port and
//! reference are compared.

mod aim;
pub mod aim_edges;
pub mod area;
mod bits;
pub mod edges;
pub mod packed;
mod xorshift;

pub use aim::{CIRCLE, entries_read, net_angle, powf, quarter_scan, scanned_angle, velocity_ramp};
pub use bits::{Bits, on_bits};
pub use xorshift::Xorshift;

#[inline]
pub fn root(x: f32) -> f32 {
    x.sqrt()
}

#[inline]
pub fn round_to_i32(x: f32) -> i32 {
    x.round() as i32
}

#[inline]
pub fn trunc_to_i32(x: f32) -> i32 {
    x.trunc() as i32
}

#[inline]
pub fn i32_to_f32(n: i32) -> f32 {
    n as f32
}

#[inline]
pub fn hundredths_to_f32(n: i32) -> f32 {
    n as f32 / 100.0
}

#[inline]
pub fn quantize(x: f32) -> f32 {
    (x.round() as i32) as f32
}

#[inline]
pub fn to_256ths(v: f32) -> i32 {
    (v * 256.0).round() as i32
}

#[inline]
pub fn from_256ths(n: i32) -> f32 {
    n as f32 / 256.0
}

#[inline]
pub fn quantize_256ths(v: f32) -> f32 {
    from_256ths(to_256ths(v))
}

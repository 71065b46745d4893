//! What the physics is made of, to be compared one by one: the tile of a point and walks over a
//! map, the aim angle, the velocity ramp, the root and the conversions. Safe functions over the
//! static library of the Rattle crate `ponguriena_parts_c`, which no server needs.

mod aim;
// As tools/c_interface makes it.
#[rustfmt::skip]
mod ffi;
mod floats;
mod walks;

pub use aim::{Scan, net_angle, scan_angle, velocity_ramp};
pub use floats::{
    from_256ths, hundredths_to_f32, i32_to_f32, quantize, quantize_256ths, root, round_to_i32,
    to_256ths, trunc_to_i32,
};
pub use walks::{Tile, check_line, check_point, move_box};

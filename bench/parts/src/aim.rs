//! The aim angle and the velocity ramp. The crate `reference` says in plain Rust
//! what each of them means.

use crate::ffi;

/// The aim angle of a target, in 1/256 radian.
#[inline]
pub fn net_angle(x: i32, y: i32) -> i32 {
    ffi::ponguriena_net_angle(x, y)
}

/// What a scan of the angle's tables tells.
#[derive(Clone, Copy, Debug, Eq, PartialEq)]
pub struct Scan {
    /// As of [`net_angle`].
    pub angle: i32,
    /// How many entries were read: none for (0, 0), else at most 403.
    pub read: u32,
}

/// The aim angle of a target by a scan down through the quarter that its signs allow.
///
/// ```
/// assert_eq!(parts::scan_angle(-1, 0), parts::Scan { angle: 804, read: 1 });
/// ```
#[inline]
pub fn scan_angle(x: i32, y: i32) -> Scan {
    let mut read = 0;
    let angle = ffi::ponguriena_scan_angle(x, y, &mut read);
    Scan { angle, read }
}

/// The factor for a speed; the tunings are in hundredths.
#[inline]
pub fn velocity_ramp(value: f32, start: i32, range: i32, curvature: i32) -> f32 {
    ffi::ponguriena_velocity_ramp(value, start, range, curvature)
}

//! The rules of document 01 that stand in for `atan2` and `powf`, and the
//! velocity ramp of libtw2 over the latter.

use crate::hundredths_to_f32;
use std::sync::LazyLock;

const RADIUS: f64 = (1 << 30) as f64;
const LAST: u32 = 804;

/// The most parts of 65,536 that an exponent counts for.
const MOST_PARTS: f64 = 16_777_215.0;

/// The integers nearest to 2^30 cos(n / 256) and 2^30 sin(n / 256).
pub static CIRCLE: LazyLock<Vec<(i64, i64)>> = LazyLock::new(|| {
    let nearest = |x: f64| (x * RADIUS).round() as i64;
    (0..=LAST)
        .map(|n| f64::from(n) / 256.0)
        .map(|angle| (nearest(angle.cos()), nearest(angle.sin())))
        .collect()
});

/// The aim angle of a target, in 1/256 radian, by halving: the entries that fit
/// are the first ones.
pub fn net_angle(x: i32, y: i32) -> i32 {
    let fitting = CIRCLE.partition_point(|entry| fits(x, y, entry));
    signed(x, y, fitting as i32 - 1)
}

/// The same by the words of document 01, with no use of the order in which
/// entries fit: a scan of them all.
pub fn scanned_angle(x: i32, y: i32) -> i32 {
    let mut largest = 0;
    for (n, entry) in CIRCLE.iter().enumerate() {
        if fits(x, y, entry) {
            largest = n;
        }
    }
    signed(x, y, largest as i32)
}

/// How many entries a scan of the quarter reads: by the customer's words, from the
/// largest of all that fit.
pub fn entries_read(x: i32, y: i32) -> u32 {
    if (x, y) == (0, 0) {
        return 0;
    }
    let above = if x > 0 { 403 } else { 805 };
    above - scanned_angle(x, y).unsigned_abs()
}

/// The scan of the quarter as plain Rust would have it: the angle, and how many
/// entries were read.
pub fn quarter_scan(x: i32, y: i32) -> (i32, u32) {
    if (x, y) == (0, 0) {
        return (0, 0);
    }
    let first = if x > 0 { 402 } else { 804 };
    let down = CIRCLE[..=first].iter().rev();
    let missed = down.take_while(|entry| !fits(x, y, entry)).count();
    (signed(x, y, (first - missed) as i32), missed as u32 + 1)
}

/// Whether the entry's angle is at most that of the target (x, |y|).
fn fits(x: i32, y: i32, &(cos, sin): &(i64, i64)) -> bool {
    i64::from(y).abs() * cos - i64::from(x) * sin >= 0
}

fn signed(x: i32, y: i32, largest: i32) -> i32 {
    if (x, y) == (0, 0) {
        0
    } else if y < 0 {
        -largest
    } else {
        largest
    }
}

/// `c` to the power of `e`, by squares and square roots.
pub fn powf(c: f32, e: f32) -> f32 {
    if e.is_nan() {
        return f32::NAN;
    }
    let parts = (f64::from(e.abs()) * 65536.0).min(MOST_PARTS) as u32;
    let is_set = |bit: u32| parts >> bit & 1 == 1;
    let mut power = 1.0;
    let mut square = c;
    for i in 0..8 {
        if is_set(16 + i) {
            power *= square;
        }
        square *= square;
    }
    let mut root = c;
    for i in (0..16).rev() {
        root = root.sqrt();
        if is_set(i) {
            power *= root;
        }
    }
    if e < 0.0 { 1.0 / power } else { power }
}

/// The factor for a speed; the tunings are in hundredths.
pub fn velocity_ramp(value: f32, start: i32, range: i32, curvature: i32) -> f32 {
    let start = hundredths_to_f32(start);
    if value < start {
        1.0
    } else {
        let curvature = hundredths_to_f32(curvature);
        let range = hundredths_to_f32(range);
        1.0 / powf(curvature, (value - start) / range)
    }
}

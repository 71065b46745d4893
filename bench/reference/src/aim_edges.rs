//! Targets, powers and ramps at which the aim angle and the velocity ramp go
//! wrong most easily.

use crate::Xorshift;
use crate::aim::CIRCLE;

/// The largest coordinate of the targets of the game's size.
const GAME_TARGET: i32 = 1000;
const FASTEST: f32 = 12000.0;

/// The values and tunings of the game, and their ends.
const VALUES: [f32; 10] = [
    0.0,
    -0.0,
    549.99994,
    550.0,
    550.00006,
    2550.0,
    1e9,
    f32::INFINITY,
    f32::NEG_INFINITY,
    f32::NAN,
];
const STARTS: [i32; 6] = [0, -1, 55000, 55001, i32::MIN, i32::MAX];
const RANGES: [i32; 8] = [0, 1, -1, 100, 200_000, -200_000, i32::MIN, i32::MAX];
const CURVATURES: [i32; 9] = [0, 1, -1, 99, 100, 140, -140, i32::MIN, i32::MAX];

const BASES: [f32; 16] = [
    0.0,
    -0.0,
    1.0,
    -1.0,
    1.4,
    -1.4,
    2.0,
    0.01,
    f32::MIN_POSITIVE,
    1e-45,
    f32::MAX,
    f32::MIN,
    0.99999994,
    f32::INFINITY,
    f32::NEG_INFINITY,
    f32::NAN,
];

/// Each is taken with both signs.
const EXPONENTS: [f32; 20] = [
    0.0,
    1e-45,
    f32::MIN_POSITIVE,
    0.000015258788, // just below one part
    0.000015258789,
    0.000030517578,
    0.25,
    0.49999997,
    0.5,
    0.99999994,
    1.0,
    1.0000153,
    2.0,
    3.5,
    128.0,
    255.99998,
    256.0,
    65536.0,
    f32::MAX,
    f32::INFINITY,
];

/// The axes, the diagonals, the ends of `i32` in each place, and for every
/// entry of the tables a target that lies on it, one of its neighbours too.
pub fn target_edges() -> Vec<(i32, i32)> {
    let ends = [0, 1, -1, i32::MAX, i32::MIN, i32::MIN + 1];
    let mut targets: Vec<_> = ends
        .iter()
        .flat_map(|&x| ends.iter().map(move |&y| (x, y)))
        .collect();
    for (n, &(cos, sin)) in CIRCLE.iter().enumerate() {
        let (x, y) = (cos as i32, sin as i32);
        targets.push((x, if n % 2 == 0 { y } else { -y }));
        targets.push((if n % 4 < 2 { x - 1 } else { x + 1 }, y));
    }
    targets
}

/// Of the game's size, of all sizes, and near the axis.
pub fn random_target(random: &mut Xorshift) -> (i32, i32) {
    let (x, y) = (random.pattern() as i32, random.pattern() as i32);
    match random.pattern() % 4 {
        0 => (x, y),
        1 => (x >> (random.pattern() % 32), y >> (random.pattern() % 32)),
        2 => (x, y % 3),
        _ => (x % GAME_TARGET, y % GAME_TARGET),
    }
}

/// Bases with exponents.
pub fn power_edges() -> Vec<(f32, f32)> {
    let signed = EXPONENTS.iter().flat_map(|&e| [e, -e]).chain([f32::NAN]);
    signed
        .flat_map(|e| BASES.iter().map(move |&c| (c, e)))
        .collect()
}

/// Half of them of the game's size, half of them any patterns.
pub fn random_power(random: &mut Xorshift) -> (f32, f32) {
    if random.pattern().is_multiple_of(2) {
        (random.within(2.0).abs(), random.within(6.0))
    } else {
        (any_float(random), any_float(random))
    }
}

/// Of the game, with other speeds.
pub fn game_ramp(random: &mut Xorshift) -> (f32, [i32; 3]) {
    (random.within(FASTEST).abs(), [55000, 200_000, 140])
}

/// Picks among the values and the tunings.
pub fn random_ramp(random: &mut Xorshift) -> (f32, [i32; 3]) {
    let mut pick = |count: usize| random.pattern() as usize % count;
    let value = VALUES[pick(VALUES.len())];
    let start = STARTS[pick(STARTS.len())];
    let range = RANGES[pick(RANGES.len())];
    let curvature = CURVATURES[pick(CURVATURES.len())];
    (value, [start, range, curvature])
}

fn any_float(random: &mut Xorshift) -> f32 {
    f32::from_bits(random.pattern())
}

//! Argument patterns at which square roots, roundings and conversions go wrong
//! most easily. A list may name a pattern more than once.

const SIGN: u32 = 0x8000_0000;
const INFINITY: u32 = 0x7f80_0000;

/// Tuning values of the game, in hundredths.
const TUNINGS: [i32; 16] = [
    1000, 200, 50, 1320, 1200, 500, 150, 95, 38000, 8000, 300, 1500, 55000, 200000, 140, 100,
];

/// Arguments for the roundings.
pub fn float_edges() -> Vec<u32> {
    let mut edges = special_patterns();
    for exponent in -149..=127 {
        let power = power_of_two(exponent);
        // Outside this range all roundings give 0 or saturate: one sign will do.
        if (-12..=34).contains(&exponent) {
            edges.extend(both_signs(neighbours(power)));
        } else {
            let sign = if exponent % 2 == 0 { 0 } else { SIGN };
            edges.extend(neighbours(power).map(|pattern| pattern | sign));
        }
    }
    edges.extend(both_signs(halves()));
    edges.extend(both_signs(integer_limits()));
    edges.extend(both_signs(parts_of_512()));
    edges
}

/// Arguments for the square root: mostly positive.
pub fn root_edges() -> Vec<u32> {
    let mut edges = special_patterns();
    for exponent in -149..=127 {
        let power = power_of_two(exponent);
        edges.extend(neighbours(power));
        if exponent % 16 == 0 {
            edges.push(power | SIGN);
        }
    }
    for odd in (2049..4096u32).step_by(32).chain([3, 5, 7, 4095]) {
        edges.extend(neighbours(((odd * odd) as f32).to_bits()));
    }
    edges
}

/// Arguments for the functions of an integer.
pub fn integer_edges() -> Vec<u32> {
    let mut edges = vec![0];
    for exponent in 0..31 {
        let power = 1 << exponent;
        edges.extend([power - 1, power, power + 1]);
    }
    // From 2^24 on not every integer is a float, and ties go to even.
    edges.extend((1 << 24) - 8..=(1 << 24) + 8);
    edges.extend((1 << 25) - 16..=(1 << 25) + 16);
    // The upper end rounds to 2^31 from its last 64 values on.
    edges.extend([63, 64, 65, 127, 128, 129, 191, 192, 193].map(|n| i32::MAX - n));
    edges.extend([i32::MAX - 2, i32::MAX - 1, i32::MAX]);
    edges.extend(TUNINGS);
    let negatives: Vec<i32> = edges.iter().map(|n| -n).collect();
    edges.extend(negatives);
    edges.extend([i32::MIN, i32::MIN + 1, i32::MIN + 2]);
    edges.into_iter().map(|n| n as u32).collect()
}

/// Both zeros, the ends of the subnormals, the infinities and some NaNs.
fn special_patterns() -> Vec<u32> {
    let positive = [
        0,
        1,
        2,
        3,
        0x007f_fffe,
        0x007f_ffff,
        0x0080_0000,
        0x0080_0001,
        0x7f7f_fffe,
        0x7f7f_ffff,
        INFINITY,
        INFINITY + 1,
        0x7fa0_0000,
        0x7fbf_ffff,
        0x7fc0_0000,
        0x7fc0_0001,
        0x7fff_ffff,
    ];
    both_signs(positive).collect()
}

fn power_of_two(exponent: i32) -> u32 {
    if exponent < -126 {
        1 << (exponent + 149)
    } else {
        ((exponent + 127) as u32) << 23
    }
}

/// A positive pattern between the one below and the one above it.
fn neighbours(pattern: u32) -> [u32; 3] {
    [pattern - 1, pattern, pattern + 1]
}

fn both_signs(patterns: impl IntoIterator<Item = u32>) -> impl Iterator<Item = u32> {
    patterns.into_iter().flat_map(|p| [p, p | SIGN])
}

/// k + 0.5 and neighbours, for small k and near the last floats with halves.
fn halves() -> impl Iterator<Item = u32> {
    let near_2_22 = (1 << 22) - 2..(1 << 22) + 2;
    let near_2_23 = (1 << 23) - 3..1 << 23;
    (0..9u32)
        .chain(near_2_22)
        .chain(near_2_23)
        .flat_map(|k| neighbours((k as f32 + 0.5).to_bits()))
        // Adding 0.5 to the float just below 0.5 rounds up to 1.
        .chain(neighbours(0x3eff_ffff))
}

/// The floats around 2^31, where the conversions to i32 begin to saturate.
fn integer_limits() -> [u32; 5] {
    [
        2147483392.0f32,
        2147483520.0,
        2147483648.0,
        2147483904.0,
        2147484160.0,
    ]
    .map(f32::to_bits)
}

/// Multiples of 1/512, which are the halves (odd) and wholes (even) of 256ths:
/// small ones and the last with an exact half.
fn parts_of_512() -> impl Iterator<Item = u32> {
    let near_10 = 5115..5125;
    let near_2_23 = (1 << 23) - 3..(1 << 23) + 4;
    let near_2_24 = (1 << 24) - 6..1 << 24;
    (1..24u32)
        .chain(near_10)
        .chain(near_2_23)
        .chain(near_2_24)
        .map(|n| (n as f32 / 512.0).to_bits())
}

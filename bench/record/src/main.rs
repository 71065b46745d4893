//! Prints test vectors for the program `test_floats`. A line is the number
//! that it has for a function, then the argument's and the answer's bits, each
//! as 8 hex digits.

use reference::edges::{float_edges, integer_edges, root_edges};
use reference::{Xorshift, on_bits};
use std::collections::HashSet;

const FLOAT_LINES: usize = 1400;
const INTEGER_LINES: usize = 700;

/// Floats of the game's size lie between minus this and this.
const GAME_LIMIT: f32 = 20000.0;

fn main() {
    let roots = filled(root_edges(), FLOAT_LINES, random_root);
    let floats = filled(float_edges(), FLOAT_LINES, random_float);
    let integers = filled(integer_edges(), INTEGER_LINES, random_integer);
    print(0, &roots, |x| on_bits(reference::root, x));
    print(1, &floats, |x| on_bits(reference::round_to_i32, x));
    print(2, &floats, |x| on_bits(reference::trunc_to_i32, x));
    print(3, &integers, |x| on_bits(reference::i32_to_f32, x));
    print(4, &integers, |x| on_bits(reference::hundredths_to_f32, x));
    print(5, &floats, |x| on_bits(reference::quantize, x));
    print(6, &floats, |x| on_bits(reference::to_256ths, x));
    print(7, &integers, |x| on_bits(reference::from_256ths, x));
    print(8, &floats, |x| on_bits(reference::quantize_256ths, x));
}

fn print(number: u32, patterns: &[u32], function: impl Fn(u32) -> u32) {
    for &pattern in patterns {
        println!("{number} {pattern:08x} {:08x}", function(pattern));
    }
}

/// The edges without duplicates, then random patterns up to `count` in all.
fn filled(edges: Vec<u32>, count: usize, random: fn(&mut Xorshift) -> u32) -> Vec<u32> {
    let mut generator = Xorshift::default();
    let mut seen = HashSet::new();
    let randoms = std::iter::repeat_with(|| random(&mut generator));
    edges
        .into_iter()
        .chain(randoms)
        .filter(|pattern| seen.insert(*pattern))
        .take(count)
        .collect()
}

/// Half of them any pattern, half of them of the game's size.
fn random_float(generator: &mut Xorshift) -> u32 {
    if generator.pattern().is_multiple_of(2) {
        generator.pattern()
    } else {
        generator.within(GAME_LIMIT).to_bits()
    }
}

/// As `random_float`, with one in 16 left negative.
fn random_root(generator: &mut Xorshift) -> u32 {
    let pattern = random_float(generator);
    if generator.pattern().is_multiple_of(16) {
        pattern
    } else {
        f32::from_bits(pattern).abs().to_bits()
    }
}

/// Of all sizes, from one bit to 32.
fn random_integer(generator: &mut Xorshift) -> u32 {
    let shift = generator.pattern() % 32;
    (generator.pattern() as i32 >> shift) as u32
}

//! Compares the port with the reference, bit for bit; all NaNs count as one.

use reference::edges::{float_edges, integer_edges};
use reference::{Bits, on_bits};
use std::ops::Range;
use std::thread;

const ALL_PATTERNS: u64 = 1 << 32;

/// Calls a comparison for a function that port and reference name alike.
macro_rules! check {
    ($compare:ident, $name:ident $(, $edges:expr)?) => {
        $compare(stringify!($name), parts::$name, reference::$name $(, $edges)?)
    };
}

#[test]
fn root_on_all_patterns() {
    check!(compare_on_all, root);
}

#[test]
fn round_to_i32_on_all_patterns() {
    check!(compare_on_all, round_to_i32);
}

#[test]
fn trunc_to_i32_on_all_patterns() {
    check!(compare_on_all, trunc_to_i32);
}

#[test]
fn others_on_some_patterns() {
    let floats = float_edges();
    check!(compare_on_some, quantize, &floats);
    check!(compare_on_some, to_256ths, &floats);
    check!(compare_on_some, quantize_256ths, &floats);
    let integers = integer_edges();
    check!(compare_on_some, i32_to_f32, &integers);
    check!(compare_on_some, hundredths_to_f32, &integers);
    check!(compare_on_some, from_256ths, &integers);
}

fn compare_on_all<A: Bits, R: Bits>(
    name: &str,
    port: impl Fn(A) -> R + Sync,
    reference: impl Fn(A) -> R + Sync,
) {
    let parts = thread::available_parallelism().map_or(1, |n| n.get() as u64);
    thread::scope(|scope| {
        let (port, reference) = (&port, &reference);
        for part in 0..parts {
            let patterns = part_of_all(part, parts).map(|pattern| pattern as u32);
            scope.spawn(move || compare(name, port, reference, patterns));
        }
    });
}

fn part_of_all(part: u64, parts: u64) -> Range<u64> {
    ALL_PATTERNS * part / parts..ALL_PATTERNS * (part + 1) / parts
}

fn compare_on_some<A: Bits, R: Bits>(
    name: &str,
    port: impl Fn(A) -> R,
    reference: impl Fn(A) -> R,
    edges: &[u32],
) {
    // An odd stride varies the low bits too: with 256 they would all be zero.
    let strided = (0..1u32 << 24).map(|n| n.wrapping_mul(257));
    let patterns = edges.iter().copied().chain(strided);
    compare(name, port, reference, patterns);
}

fn compare<A: Bits, R: Bits>(
    name: &str,
    port: impl Fn(A) -> R,
    reference: impl Fn(A) -> R,
    patterns: impl Iterator<Item = u32>,
) {
    for pattern in patterns {
        let answer = on_bits(&port, pattern);
        let expected = on_bits(&reference, pattern);
        assert!(
            answer == expected,
            "{name} of {pattern:08x}: the port answers {answer:08x}, the reference {expected:08x}"
        );
    }
}

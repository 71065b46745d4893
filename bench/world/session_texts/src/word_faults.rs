//! A value that is none, or one that its place does not take.

use crate::faults::Fault;
use crate::places::{any, call_lines, value_lines, with, words};
use reference::Xorshift;
use std::ops::Range;
use tile_map::draw::pick;

pub const FAULTS: [(&str, Fault); 12] = [
    ("leading zero", leading_zero),
    ("minus zero", |text, random| {
        other_word(text, random, &["-0"])
    }),
    ("plus sign", plus_sign),
    ("minus alone", |text, random| {
        other_word(text, random, &["-", "--1"])
    }),
    ("empty word", |text, random| other_word(text, random, &[""])),
    ("no number", |text, random| {
        other_word(text, random, &NO_NUMBERS)
    }),
    ("no i32", |text, random| other_word(text, random, &NO_I32)),
    ("spare argument", spare_argument),
    ("call code", call_code),
    ("tile", tile),
    ("side", side),
    ("other values", other_values),
];

const NO_NUMBERS: [&str; 8] = [
    "a",
    "1.0",
    "0x1",
    "1e1",
    "1_0",
    "1,",
    "\u{661}",
    "\u{2212}1",
];

const NO_I32: [&str; 8] = [
    "2147483648",
    "-2147483649",
    "4294967295",
    "4294967296",
    "9223372036854775808",
    "18446744073709551616",
    "-18446744073709551615",
    "100000000000000000000000000000000000000000",
];

/// The word of each code from which on arguments are spare.
const SPARE_FROM: [(u8, usize); 4] = [(b'1', 4), (b'2', 2), (b'4', 1), (b'5', 3)];

fn any_word(text: &[u8], random: &mut Xorshift) -> Range<usize> {
    let line = any(value_lines(text), random);
    any(words(text, line), random)
}

fn other_word(text: &[u8], random: &mut Xorshift, others: &[&str]) -> Vec<u8> {
    let place = any_word(text, random);
    with(text, place, pick(random, others))
}

/// After the minus sign, if there is one.
fn leading_zero(text: &[u8], random: &mut Xorshift) -> Vec<u8> {
    let word = any_word(text, random);
    let start = word.start + usize::from(text[word.start] == b'-');
    with(text, start..start, pick(random, &["0", "0", "000"]))
}

fn plus_sign(text: &[u8], random: &mut Xorshift) -> Vec<u8> {
    let word = any_word(text, random);
    with(text, word.start..word.start, "+")
}

fn spare_argument(text: &[u8], random: &mut Xorshift) -> Vec<u8> {
    let mut places = Vec::new();
    for line in call_lines(text) {
        let code = text[line.start];
        if let Some((_, from)) = SPARE_FROM.into_iter().find(|&(of, _)| of == code) {
            places.extend(words(text, line).split_off(from));
        }
    }
    let place = any(places, random);
    with(
        text,
        place,
        pick(random, &["1", "-1", "2147483647", "-2147483648"]),
    )
}

fn call_code(text: &[u8], random: &mut Xorshift) -> Vec<u8> {
    let line = any(call_lines(text), random);
    let codes = ["0", "6", "-1", "7", "10", "256", "-2147483648"];
    with(text, words(text, line)[0].clone(), pick(random, &codes))
}

/// The sides are on the first line of values, the calls after the tiles.
fn tile(text: &[u8], random: &mut Xorshift) -> Vec<u8> {
    let count = value_lines(text).len() - call_lines(text).len();
    let rows = value_lines(text)[1..count].to_vec();
    let row = any(rows, random);
    let place = any(words(text, row), random);
    with(
        text,
        place,
        pick(random, &["256", "-1", "257", "511", "2147483647"]),
    )
}

fn side(text: &[u8], random: &mut Xorshift) -> Vec<u8> {
    let place = any(words(text, value_lines(text)[0].clone()), random);
    let sides = [
        "0",
        "1025",
        "-1",
        "1",
        "2",
        "3",
        "1024",
        "2147483647",
        "-2147483648",
    ];
    with(text, place, pick(random, &sides))
}

/// At fault in most places, but not in all.
fn other_values(text: &[u8], random: &mut Xorshift) -> Vec<u8> {
    other_word(
        text,
        random,
        &["0", "1", "-1", "255", "-2147483648", "2147483647"],
    )
}

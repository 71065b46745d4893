//! Bytes that have no place in a text, and texts cut off.

use crate::faults::Fault;
use crate::places::with;
use reference::Xorshift;
use tile_map::draw::{below, pick};

pub const FAULTS: [(&str, Fault); 8] = [
    ("empty text", |_, _| Vec::new()),
    ("cut off", cut_off),
    ("tab", |text, random| other_space(text, random, "\t")),
    ("two spaces", |text, random| other_space(text, random, "  ")),
    ("other space", |text, random| {
        other_space(text, random, "\n")
    }),
    ("byte above 127", byte_above_127),
    ("other byte", other_byte),
    ("more after the end", more_after_the_end),
];

fn cut_off(text: &[u8], random: &mut Xorshift) -> Vec<u8> {
    text[..below(random, text.len())].to_vec()
}

fn other_space(text: &[u8], random: &mut Xorshift, other: &str) -> Vec<u8> {
    let spaces: Vec<usize> = (0..text.len()).filter(|&at| text[at] == b' ').collect();
    let at = pick(random, &spaces);
    with(text, at..at + 1, other)
}

/// In place of a byte, or before it.
fn byte_above_127(text: &[u8], random: &mut Xorshift) -> Vec<u8> {
    let at = below(random, text.len());
    let byte = 128 + below(random, 128) as u8;
    with(text, at..at + below(random, 2), [byte])
}

/// At fault most often, but not always.
fn other_byte(text: &[u8], random: &mut Xorshift) -> Vec<u8> {
    let at = below(random, text.len());
    let byte = pick(random, b"0123456789- \n\r\t+\0ac");
    with(text, at..at + below(random, 2), [byte])
}

fn more_after_the_end(text: &[u8], random: &mut Xorshift) -> Vec<u8> {
    let more = pick(random, &["0", "4", " ", "\0", "\r", "x", "4 0 0 0 0 0 0"]);
    with(text, text.len()..text.len(), more)
}

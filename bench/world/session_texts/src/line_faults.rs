//! Lines that are not as they should be, or not where.

use crate::faults::Fault;
use crate::places::{any, lines, name_lines, value_lines, with, words};
use reference::Xorshift;
use tile_map::draw::{below, pick};

pub const FAULTS: [(&str, Fault); 11] = [
    ("blank line", blank_line),
    ("one too many", one_too_many),
    ("one too few", one_too_few),
    ("space before", space_before),
    ("space after", |text, random| {
        before_an_end(text, random, " ")
    }),
    ("carriage return", |text, random| {
        before_an_end(text, random, "\r")
    }),
    ("names", names),
    ("line left out", line_left_out),
    ("line twice", line_twice),
    ("lines exchanged", lines_exchanged),
    ("last line not ended", last_line_not_ended),
];

fn blank_line(text: &[u8], random: &mut Xorshift) -> Vec<u8> {
    let start = any(lines(text), random).start;
    let start = pick(random, &[start, start, text.len()]);
    with(text, start..start, "\n")
}

fn one_too_many(text: &[u8], random: &mut Xorshift) -> Vec<u8> {
    let end = any(value_lines(text), random).end - 1;
    with(text, end..end, " 0")
}

fn one_too_few(text: &[u8], random: &mut Xorshift) -> Vec<u8> {
    let line = any(value_lines(text), random);
    let last = words(text, line.clone()).pop().expect("a value");
    // With the space before it, where it is not the only one.
    let start = last.start - usize::from(last.start > line.start);
    with(text, start..last.end, "")
}

fn space_before(text: &[u8], random: &mut Xorshift) -> Vec<u8> {
    let start = any(lines(text), random).start;
    with(text, start..start, " ")
}

fn before_an_end(text: &[u8], random: &mut Xorshift, more: &str) -> Vec<u8> {
    let end = any(lines(text), random).end - 1;
    with(text, end..end, more)
}

/// A byte left out, put in or changed.
fn names(text: &[u8], random: &mut Xorshift) -> Vec<u8> {
    let line = any(name_lines(text), random);
    let at = line.start + below(random, line.len() - 1);
    let other = pick(random, &["x", "A", "\t", "\0"]);
    match below(random, 3) {
        0 => with(text, at..at + 1, ""),
        1 => with(text, at..at, other),
        _ => with(text, at..at + 1, other),
    }
}

fn line_left_out(text: &[u8], random: &mut Xorshift) -> Vec<u8> {
    let line = any(lines(text), random);
    with(text, line, "")
}

fn line_twice(text: &[u8], random: &mut Xorshift) -> Vec<u8> {
    let line = any(lines(text), random);
    with(text, line.start..line.start, &text[line])
}

fn lines_exchanged(text: &[u8], random: &mut Xorshift) -> Vec<u8> {
    let (a, b) = (any(lines(text), random), any(lines(text), random));
    let (first, second) = if a.start < b.start { (a, b) } else { (b, a) };
    let later = with(text, second.clone(), &text[first.clone()]);
    with(&later, first, &text[second])
}

fn last_line_not_ended(text: &[u8], random: &mut Xorshift) -> Vec<u8> {
    let end = text.len() - 1;
    with(
        text,
        end..text.len(),
        pick(random, &["", "", " ", "\r", "\0"]),
    )
}

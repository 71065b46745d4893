//! Where a text's lines and words are.

use reference::Xorshift;
use session::CALL_NAMES;
use std::ops::Range;
use tile_map::draw::below;

/// With the byte that ends each.
pub fn lines(text: &[u8]) -> Vec<Range<usize>> {
    parts(text, 0..text.len(), b'\n')
}

/// Lines of numbers.
pub fn value_lines(text: &[u8]) -> Vec<Range<usize>> {
    let is_name = |line: &Range<usize>| text[line.start].is_ascii_lowercase();
    let mut lines = lines(text);
    lines.retain(|line| !is_name(line));
    lines
}

pub fn name_lines(text: &[u8]) -> Vec<Range<usize>> {
    let is_name = |line: &Range<usize>| text[line.start].is_ascii_lowercase();
    let mut lines = lines(text);
    lines.retain(is_name);
    lines
}

/// Those after the last line of names.
pub fn call_lines(text: &[u8]) -> Vec<Range<usize>> {
    let names = name_lines(text).pop().expect("lines of names");
    assert!(text[names.clone()].starts_with(CALL_NAMES.as_bytes()));
    parts(text, names.end..text.len(), b'\n')
}

/// Of one line, without the bytes between them.
pub fn words(text: &[u8], line: Range<usize>) -> Vec<Range<usize>> {
    let inner = line.start..line.end - 1;
    let mut words = parts(text, inner.clone(), b' ');
    for word in &mut words {
        if word.end < inner.end {
            word.end -= 1;
        }
    }
    words
}

/// Each part ends with that byte, or the last where the whole does.
fn parts(text: &[u8], whole: Range<usize>, end: u8) -> Vec<Range<usize>> {
    let mut parts = Vec::new();
    let mut start = whole.start;
    for index in whole.clone() {
        if text[index] == end || index + 1 == whole.end {
            parts.push(start..index + 1);
            start = index + 1;
        }
    }
    parts
}

pub fn any(places: Vec<Range<usize>>, random: &mut Xorshift) -> Range<usize> {
    places[below(random, places.len())].clone()
}

/// The text with something else in that place.
pub fn with(text: &[u8], place: Range<usize>, other: impl AsRef<[u8]>) -> Vec<u8> {
    [&text[..place.start], other.as_ref(), &text[place.end..]].concat()
}

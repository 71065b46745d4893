//! Texts at fault: a text that is well, with one thing wrong.

use crate::play::small;
use crate::written::sequence_text;
use reference::Xorshift;

pub type Fault = fn(&[u8], &mut Xorshift) -> Vec<u8>;

/// A fault somewhere in a small text.
pub fn text_with(fault: Fault, random: &mut Xorshift) -> Vec<u8> {
    let text = sequence_text(&small(random));
    fault(&text, random)
}

pub fn all() -> Vec<(&'static str, Fault)> {
    let mut faults = crate::word_faults::FAULTS.to_vec();
    faults.extend(crate::line_faults::FAULTS);
    faults.extend(crate::byte_faults::FAULTS);
    faults
}

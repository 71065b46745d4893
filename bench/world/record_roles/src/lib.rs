//! Sequences of calls and reads, each as some role, with the answers of the harness.

mod asks;
mod each;
mod faults;
mod holding;
mod inputs;
mod playing;
mod reads;
mod sequence;
#[cfg(test)]
mod tests;

pub use sequence::{RoleLine, RoleSequence};

use reference::Xorshift;

pub fn all_sequences() -> Vec<RoleSequence> {
    let mut random = Xorshift::default();
    let mut sequences = each::each_role_sequences();
    sequences.extend(faults::fault_sequences());
    sequences.extend(inputs::input_sequences());
    sequences.extend(reads::read_sequences());
    sequences.extend(holding::holding_sequences());
    sequences.extend(playing::play_sequences(&mut random));
    sequences
}

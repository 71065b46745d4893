//! Sequences of calls with searches between them, with the answers of the harness.

mod among_others;
mod faults;
pub mod playing;
mod sequence;
mod spikes;
#[cfg(test)]
mod tests;
mod ways;

pub use sequence::{Asked, Search, SearchLine, SearchSequence, UNWRITTEN};

use reference::Xorshift;

pub fn all_sequences() -> Vec<SearchSequence> {
    let mut random = Xorshift::default();
    let mut sequences = ways::way_sequences();
    sequences.extend(spikes::spike_sequences());
    sequences.extend(among_others::sequences());
    sequences.extend(faults::fault_sequences());
    sequences.extend(playing::play_sequences(&mut random));
    sequences
}

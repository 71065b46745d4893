//! Sequences of calls on a world with a sender beside it and a screen behind it, with what
//! the harness passes along.

mod holding;
mod leaving;
mod line;
mod playing;
mod refusals;
mod refused_copies;
mod seats;
mod spikes;
mod standing;
#[cfg(test)]
mod tests;
mod tunings;

pub use line::{SentLine, sent_lines};

use record_calls::Sequence;
use reference::Xorshift;

pub fn all_sequences() -> Vec<Sequence> {
    let mut random = Xorshift::default();
    let mut sequences = standing::standing_sequences();
    sequences.extend(refusals::refusal_sequences());
    sequences.extend(leaving::leaving_sequences());
    sequences.extend(spikes::spike_sequences());
    sequences.extend(holding::holding_sequences());
    sequences.extend(tunings::tuning_sequences());
    sequences.extend(refused_copies::refused_sequences());
    sequences.extend(playing::play_sequences(&mut random));
    sequences.extend(seats::all_seat_sequences());
    sequences
}

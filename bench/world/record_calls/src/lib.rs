//! Sequences of calls on a world, with the answers of document 01's world over libtw2.

pub mod digest;
mod holds;
mod hooks;
pub mod inputs;
mod leavers;
mod limits;
pub mod maps;
mod marks;
mod play;
mod refusals;
mod seats;
mod sequence;
mod spikes;
mod steering;
#[cfg(test)]
mod tests;
mod too_far;

pub use holds::hold_sequences;
pub use seats::seat_sequences;
pub use sequence::{Line, Sequence, line_text, told_map};
pub use spikes::spike_sequences;
pub use too_far::too_far_sequences;

use reference::Xorshift;

pub fn all_sequences() -> Vec<Sequence> {
    let mut sequences = session_sequences();
    sequences.extend(marks::mark_sequences());
    sequences.push(leavers::held_by_several());
    sequences.extend(spike_sequences());
    sequences.extend(hold_sequences());
    sequences.extend(seat_sequences());
    sequences
}

/// Those that texts are drawn from too. One more would draw other texts.
pub fn session_sequences() -> Vec<Sequence> {
    let mut random = Xorshift::default();
    let mut sequences = refusals::refusal_sequences();
    sequences.extend(too_far_sequences());
    sequences.extend(hooks::hook_sequences());
    sequences.extend(leavers::leaver_sequences());
    sequences.extend(steering::steering_sequences());
    sequences.extend(limits::limit_sequences(&mut random));
    sequences.extend(play::play_sequences(&mut random));
    sequences
}

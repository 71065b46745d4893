//! Texts for the session program: games, limits and faults of every kind, by a seed.

mod byte_faults;
mod faults;
mod lengths;
mod line_faults;
pub mod maps;
mod places;
pub mod play;
mod programs;
mod sequences;
#[cfg(test)]
mod tests;
mod timed;
mod word_faults;
mod written;

pub use programs::output_of;
pub use timed::timed;

use Draw::{Bytes, Game};
use record_calls::{Sequence, hold_sequences, seat_sequences, spike_sequences};
use reference::Xorshift;
use written::sequence_text;

#[derive(Clone, Copy)]
enum Draw {
    Game(fn(&mut Xorshift) -> Sequence),
    Bytes(fn(&mut Xorshift) -> Vec<u8>),
}

pub struct Text {
    /// What it is about.
    pub kind: &'static str,
    pub bytes: Vec<u8>,
}

/// Texts of games, and how many of each are recorded.
const GAMES: [(&str, Draw, usize); 14] = [
    ("ordinary play", Game(play::ordinary), 24),
    ("every seat", Game(play::full), 8),
    ("no player collision", Game(play::apart), 12),
    ("extreme tunings", Game(play::extreme), 20),
    ("long walks", Bytes(sequences::too_far), 14),
    ("limits of arguments", Game(play::limits), 14),
    ("ends of maps", Game(play::at_map_ends), 14),
    ("recorded sequences", Bytes(sequences::recorded), 14),
    ("nearly the longest text", Bytes(lengths::nearly_longest), 1),
    ("the longest text", Bytes(lengths::longest), 3),
    ("a text too long", Bytes(lengths::too_long), 3),
    ("long play", Game(play::long), 0),
    ("many calls", Bytes(lengths::many_calls), 0),
    (SPIKES, Game(play::spiked), 0),
];

/// Drawn as games, and recorded as sequences.
const SPIKES: &str = "spikes";

/// Games over all seats, and how many of each are recorded, behind all others.
const SEAT_GAMES: [(&str, Draw, usize); 4] = [
    ("every seat taken", Game(play::all_seats), 3),
    ("ids of any seats", Game(play::any_seats), 2),
    ("limits of ids", Game(play::id_limits), 3),
    (LONG_OUTPUTS[1], Game(play::all_seats_long), 1),
];

/// Recorded as sequences.
const SEATS: &str = "seats";

/// Games with holds, and how many are recorded, behind those; more are recorded as sequences.
const HOLD_GAMES: [(&str, Draw, usize); 1] = [("hook holds", Game(play::holds), 4)];

/// Each fault is recorded so often.
const FAULTS_RECORDED: usize = 3;

/// Those whose output is longer than what the program writes at once.
const LONG_OUTPUTS: [&str; 2] = ["long output", "long output of every seat"];

/// The example of document 01.
const EXAMPLE: &str = "width height\n3 3\ntiles\n0 0 0\n0 0 0\n0 0 0\ncall a b c d e f\n\
                       1 0 48 48 0 0 0\n4 0 0 0 0 0 0\n";

impl Draw {
    fn bytes(self, random: &mut Xorshift) -> Vec<u8> {
        match self {
            Game(draw) => sequence_text(&draw(random)),
            Bytes(draw) => draw(random),
        }
    }
}

/// All that are drawn.
fn games() -> Vec<(&'static str, Draw, usize)> {
    [GAMES.as_slice(), &SEAT_GAMES, &HOLD_GAMES].concat()
}

/// The text of that number. Games and faults take turns.
pub fn drawn(seed: u64, number: u64) -> Text {
    let mut random = Xorshift::seeded(seed.wrapping_mul(1 << 32).wrapping_add(number));
    let turn = (number / 2) as usize;
    if number.is_multiple_of(2) {
        let games = games();
        let (kind, draw, _) = games[turn % games.len()];
        let bytes = draw.bytes(&mut random);
        return Text { kind, bytes };
    }
    let faults = faults::all();
    let (kind, fault) = faults[turn % faults.len()];
    let bytes = faults::text_with(fault, &mut random);
    Text { kind, bytes }
}

/// Those that the repository holds.
pub fn recorded() -> Vec<Text> {
    let mut random = Xorshift::default();
    let bytes = EXAMPLE.as_bytes().to_vec();
    let kind = "example";
    let mut texts = vec![Text { kind, bytes }];
    texts.extend(recorded_of(&GAMES, &mut random));
    for (kind, fault) in faults::all() {
        for _ in 0..FAULTS_RECORDED {
            let bytes = faults::text_with(fault, &mut random);
            texts.push(Text { kind, bytes });
        }
    }
    let bytes = sequence_text(&play::crowded(&mut random));
    let kind = LONG_OUTPUTS[0];
    texts.push(Text { kind, bytes });
    texts.extend(written(SPIKES, &spike_sequences()));
    texts.extend(written(SEATS, &seat_sequences()));
    texts.extend(recorded_of(&SEAT_GAMES, &mut random));
    texts.extend(written(HOLD_GAMES[0].0, &hold_sequences()));
    texts.extend(recorded_of(&HOLD_GAMES, &mut random));
    texts
}

/// As many of each kind as are recorded.
fn recorded_of(games: &[(&'static str, Draw, usize)], random: &mut Xorshift) -> Vec<Text> {
    let each = games
        .iter()
        .flat_map(|&(kind, draw, count)| vec![(kind, draw); count]);
    let text = |(kind, draw): (&'static str, Draw)| Text {
        kind,
        bytes: draw.bytes(random),
    };
    each.map(text).collect()
}

fn written(kind: &'static str, sequences: &[Sequence]) -> Vec<Text> {
    let text = |sequence: &Sequence| Text {
        kind,
        bytes: sequence_text(sequence),
    };
    sequences.iter().map(text).collect()
}

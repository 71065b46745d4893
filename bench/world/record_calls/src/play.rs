//! Ordinary play, with calls that are refused among it.

use crate::maps::all;
use crate::sequence::Sequence;
use harness::draw::{FIRST_SEATS, any_call, any_join, input_at_somebody, place};
use harness::tunings::PLAYER_COLLISION;
use reference::Xorshift;
use tile_map::Map;
use tile_map::draw::{below, pick};

/// Rounds over all maps.
const ROUNDS: usize = 2;

const CALLS: usize = 45;

pub fn play_sequences(random: &mut Xorshift) -> Vec<Sequence> {
    let mut sequences = Vec::new();
    let maps = all(random);
    for _ in 0..ROUNDS {
        sequences.extend(maps.iter().map(|map| few(map, random)));
    }
    for map in maps.iter().step_by(3) {
        let collision = pick(random, &[0, 100]);
        sequences.push(full(map, collision, random));
    }
    sequences
}

/// A few to begin with; who is there changes.
fn few(map: &Map, random: &mut Xorshift) -> Sequence {
    let mut sequence = Sequence::on(map);
    for _ in 0..2 + below(random, 5) {
        sequence.call(any_join(FIRST_SEATS, map, random));
    }
    for _ in 0..CALLS {
        let call = any_call(FIRST_SEATS, &sequence.world, map, random);
        sequence.call(call);
    }
    sequence
}

/// A player on each of the first seats.
fn full(map: &Map, collision: i32, random: &mut Xorshift) -> Sequence {
    let mut sequence = Sequence::on(map).tuned(PLAYER_COLLISION, collision);
    for id in 0..FIRST_SEATS as i32 {
        let (x, y) = place(map, random);
        sequence = sequence.join(id, x, y);
    }
    for id in 0..FIRST_SEATS as i32 {
        let input = input_at_somebody(&sequence.world, id, random);
        sequence = sequence.told(id, input).steps(id as usize % 2);
    }
    sequence.steps(10)
}

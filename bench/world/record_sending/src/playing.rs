//! Ordinary play, and play with tunings at their ends.

use harness::draw::{
    FIRST_SEATS, FIRST_TUNINGS, any_call, any_join, extreme_tuning, input_at_somebody, place,
    present_id,
};
use record_calls::Sequence;
use record_calls::maps::all;
use reference::Xorshift;
use tile_map::Map;
use tile_map::draw::below;

const CALLS: usize = 34;

pub fn play_sequences(random: &mut Xorshift) -> Vec<Sequence> {
    let maps = all(random);
    let mut sequences = Vec::new();
    for map in maps.iter().step_by(3) {
        sequences.push(few(map, random));
    }
    sequences.push(full(&maps[0], random));
    for map in maps.iter().step_by(5) {
        sequences.push(extreme(map, random));
    }
    sequences
}

/// A few to begin with; who is there changes.
fn few(map: &Map, random: &mut Xorshift) -> Sequence {
    let mut sequence = Sequence::on(map);
    for _ in 0..2 + below(random, 4) {
        sequence.call(any_join(FIRST_SEATS, map, random));
    }
    for _ in 0..CALLS {
        let call = any_call(FIRST_SEATS, &sequence.world, map, random);
        sequence.call(call);
    }
    sequence
}

/// A player on each of the first seats.
fn full(map: &Map, random: &mut Xorshift) -> Sequence {
    let mut sequence = Sequence::on(map);
    for id in 0..FIRST_SEATS as i32 {
        let (x, y) = place(map, random);
        sequence = sequence.join(id, x, y);
    }
    for id in (0..FIRST_SEATS as i32).step_by(3) {
        let input = input_at_somebody(&sequence.world, id, random);
        sequence = sequence.told(id, input).steps(1);
    }
    sequence.steps(4)
}

/// All tunings are drawn.
fn extreme(map: &Map, random: &mut Xorshift) -> Sequence {
    let mut sequence = Sequence::on(map);
    for _ in 0..4 {
        sequence.call(any_join(FIRST_SEATS, map, random));
    }
    sequence = sequence.steps(1);
    for index in 0..FIRST_TUNINGS {
        sequence = sequence.tuned(index, extreme_tuning(index, random));
    }
    for _ in 0..4 {
        let id = present_id(&sequence.world, random);
        let input = input_at_somebody(&sequence.world, id, random);
        sequence = sequence.told(id, input).steps(1);
    }
    sequence
}

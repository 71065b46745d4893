//! Play in which everybody asks, and not just for what they may.

use crate::sequence::RoleSequence;
use harness::SEATS;
use harness::draw::{FIRST_SEATS, any_ask, any_join, any_role};
use record_calls::Sequence;
use record_calls::maps::all;
use reference::Xorshift;
use tile_map::Map;

const ASKS: usize = 13;

pub fn play_sequences(random: &mut Xorshift) -> Vec<RoleSequence> {
    let maps = all(random);
    let mut sequences = Vec::new();
    for (turn, map) in maps.iter().step_by(2).enumerate() {
        let seats = [FIRST_SEATS, SEATS][turn % 2];
        sequences.push(mixed(map, seats, random));
    }
    sequences
}

fn mixed(map: &Map, seats: usize, random: &mut Xorshift) -> RoleSequence {
    let mut start = Sequence::on(map);
    for _ in 0..4 {
        start.call(any_join(seats, map, random));
    }
    let mut sequence = RoleSequence::refereed(&start.steps(1));
    for _ in 0..ASKS {
        let ask = any_ask(seats, &sequence.world, map, random);
        let role = any_role(seats, ask, random);
        sequence = sequence.ask(role, ask);
    }
    sequence
}

//! Tunings at their ends.

use crate::inputs::{hook, walk};
use crate::maps::all;
use crate::sequence::Sequence;
use harness::draw::{
    FIRST_SEATS, FIRST_TUNINGS, any_join, extreme_tuning, input_at_somebody, present_id,
};
use libtw2_gamenet::snap_obj::PlayerInput;
use reference::Xorshift;
use tile_map::draw::pick;
use tile_map::maps::floor;

const EXTREMES: [i32; 5] = [0, -1, -1000, i32::MIN, i32::MAX];

/// Sequences with all tunings drawn.
const RANDOM: usize = 20;

pub fn limit_sequences(random: &mut Xorshift) -> Vec<Sequence> {
    let mut sequences = Vec::new();
    for index in 0..FIRST_TUNINGS {
        sequences.extend(EXTREMES.map(|hundredths| one_tuning(index, hundredths)));
    }
    let maps = all(random);
    for turn in 0..RANDOM {
        sequences.push(all_tunings(Sequence::on(&maps[turn % maps.len()]), random));
    }
    sequences
}

/// Somebody stands, somebody walks and jumps, somebody holds another.
fn one_tuning(index: usize, hundredths: i32) -> Sequence {
    let input = PlayerInput { jump: 1, ..walk(1) };
    Sequence::on(&floor())
        .join(0, 100, 82)
        .join(1, 130, 82)
        .join(2, 130, 20)
        .told(1, input)
        .told(2, hook(-30, 62))
        .steps(1)
        .tuned(index, hundredths)
        .steps(4)
}

fn all_tunings(mut sequence: Sequence, random: &mut Xorshift) -> Sequence {
    for _ in 0..6 {
        let call = any_join(FIRST_SEATS, &sequence.map, random);
        sequence.call(call);
    }
    for index in 0..FIRST_TUNINGS {
        sequence = sequence.tuned(index, extreme_tuning(index, random));
    }
    for _ in 0..6 {
        let id = present_id(&sequence.world, random);
        let input = input_at_somebody(&sequence.world, id, random);
        sequence = sequence.told(id, input).steps(pick(random, &[1, 2]));
    }
    sequence
}

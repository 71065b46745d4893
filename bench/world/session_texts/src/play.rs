//! Games.

use crate::maps::{end_map, spiked_map, walled_map};
use harness::draw::{
    FIRST_SEATS, FIRST_TUNINGS, any_call, any_call_or_hold, any_id, extreme_tuning,
    input_at_somebody, place, present_id,
};
use harness::tunings::{PLAYER_COLLISION, TUNINGS};
use harness::{Call, SEATS};
use record_calls::Sequence;
use reference::Xorshift;
use tile_map::draw::{below, pick, random_map};
use tile_map::maps::{open, room};

/// One more than the last id.
const NO_SEAT: i32 = SEATS as i32;

/// One more than the last index.
const NO_TUNING: i32 = TUNINGS as i32;

const SHORT: usize = 70;
const LONG: usize = 600;

pub fn ordinary(random: &mut Xorshift) -> Sequence {
    let sequence = Sequence::on(&walled_map(random));
    played(sequence, SHORT, random)
}

pub fn long(random: &mut Xorshift) -> Sequence {
    let sequence = Sequence::on(&walled_map(random));
    played(sequence, LONG, random)
}

/// For faults; ends with a step.
pub fn small(random: &mut Xorshift) -> Sequence {
    let (width, height) = (2 + below(random, 7), 2 + below(random, 5));
    let map = random_map(width, height, 3, random);
    let mut sequence = joined(Sequence::on(&map), 2, random);
    for _ in 0..below(random, 10) {
        let call = any_call(FIRST_SEATS, &sequence.world, &map, random);
        sequence.call(call);
    }
    sequence.steps(1)
}

/// Player collision is off.
pub fn apart(random: &mut Xorshift) -> Sequence {
    let sequence = Sequence::on(&walled_map(random)).tuned(PLAYER_COLLISION, 0);
    played(sequence, SHORT, random)
}

/// Among spikes; player collision is on or off.
pub fn spiked(random: &mut Xorshift) -> Sequence {
    let sequence = Sequence::on(&spiked_map(random));
    let collision = pick(random, &[0, 100]);
    played(sequence.tuned(PLAYER_COLLISION, collision), SHORT, random)
}

/// On maps of one row, of one column, and the like.
pub fn at_map_ends(random: &mut Xorshift) -> Sequence {
    let sequence = Sequence::on(&end_map(random));
    played(sequence, SHORT / 2, random)
}

/// The first seats taken, and everybody told something.
pub fn full(random: &mut Xorshift) -> Sequence {
    everybody(FIRST_SEATS, random).steps(10)
}

/// The same for more steps.
pub fn crowded(random: &mut Xorshift) -> Sequence {
    everybody(FIRST_SEATS, random).steps(120)
}

/// Every seat taken, and everybody told something; some leave, who may be held.
pub fn all_seats(random: &mut Xorshift) -> Sequence {
    let mut sequence = everybody(SEATS, random).steps(3);
    for _ in 0..3 {
        sequence = sequence.leave(any_id(SEATS, random)).steps(1);
    }
    sequence
}

/// The same for more steps.
pub fn all_seats_long(random: &mut Xorshift) -> Sequence {
    all_seats(random).steps(15)
}

fn everybody(seats: usize, random: &mut Xorshift) -> Sequence {
    let mut sequence = joined(Sequence::on(&walled_map(random)), seats, random);
    for id in 0..seats as i32 {
        let input = input_at_somebody(&sequence.world, id, random);
        sequence = sequence.told(id, input);
    }
    sequence
}

/// A few players, whose ids are those of any seats.
pub fn any_seats(random: &mut Xorshift) -> Sequence {
    let mut sequence = Sequence::on(&spiked_map(random));
    for _ in 0..4 + below(random, 9) {
        let (x, y) = place(&sequence.map, random);
        sequence = sequence.join(any_id(SEATS, random), x, y);
    }
    calls(SEATS, sequence, SHORT, random)
}

/// A few players who hook each other, under holds that are short, long or none.
pub fn holds(random: &mut Xorshift) -> Sequence {
    let count = 2 + below(random, 4);
    let mut sequence = joined(Sequence::on(&walled_map(random)), count, random);
    for _ in 0..SHORT {
        let call = any_call_or_hold(FIRST_SEATS, &sequence.world, &sequence.map, random);
        sequence.call(call);
    }
    sequence
}

/// Many tunings, or all, at their ends.
pub fn extreme(random: &mut Xorshift) -> Sequence {
    let count = 2 + below(random, 5);
    let mut sequence = joined(Sequence::on(&walled_map(random)), count, random);
    let one_in = pick(random, &[1, 2, 6]);
    for index in 0..FIRST_TUNINGS {
        if below(random, one_in) == 0 {
            sequence = sequence.tuned(index, extreme_tuning(index, random));
        }
    }
    for _ in 0..10 {
        let id = present_id(&sequence.world, random);
        let input = input_at_somebody(&sequence.world, id, random);
        sequence = sequence.told(id, input).steps(1);
    }
    sequence
}

/// Every argument at its limits.
pub fn limits(random: &mut Xorshift) -> Sequence {
    at_limits(&[0, 0, 1, 1, 15, 15, NO_SEAT], random)
}

/// The same with ids about the sixteenth and about the last.
pub fn id_limits(random: &mut Xorshift) -> Sequence {
    at_limits(
        &[
            15,
            16,
            16,
            17,
            NO_SEAT - 2,
            NO_SEAT - 1,
            NO_SEAT - 1,
            NO_SEAT,
        ],
        random,
    )
}

fn at_limits(ids: &[i32], random: &mut Xorshift) -> Sequence {
    let map = pick(random, &[open as fn() -> _, room])();
    let mut sequence = Sequence::on(&map);
    for _ in 0..SHORT {
        sequence.call(call_at_limits(ids, random));
    }
    sequence
}

/// Of one of these ids, or of none.
fn call_at_limits(ids: &[i32], random: &mut Xorshift) -> Call {
    const ENDS: [i32; 5] = [0, 1, -1, i32::MIN, i32::MAX];
    const PLACES: [i32; 9] = [
        60,
        100,
        100_000,
        -100_000,
        100_001,
        -100_001,
        99_999,
        i32::MIN,
        i32::MAX,
    ];
    let id = pick(random, &[ids, &[-1, i32::MIN, i32::MAX]].concat());
    let index = pick(random, &[-1, 0, 16, 17, NO_TUNING, i32::MIN, i32::MAX]);
    let mut end = || pick(random, &ENDS);
    let [a, b, c, d, e] = [end(), end(), end(), end(), end()];
    let (x, y) = (pick(random, &PLACES), pick(random, &PLACES));
    let numbers = match below(random, 8) {
        0 | 1 => [1, id, x, y, 0, 0, 0],
        2 => [1, id, 60, 60, 0, 0, 0],
        3 => [2, id, 0, 0, 0, 0, 0],
        4 | 5 => [3, id, a, b, c, d, e],
        6 => [5, index, a, 0, 0, 0, 0],
        _ => [4, 0, 0, 0, 0, 0, 0],
    };
    Call::from_numbers(numbers).expect("a call")
}

pub fn joined(mut sequence: Sequence, count: usize, random: &mut Xorshift) -> Sequence {
    for id in 0..count as i32 {
        let (x, y) = place(&sequence.map, random);
        sequence = sequence.join(id, x, y);
    }
    sequence
}

fn played(sequence: Sequence, count: usize, random: &mut Xorshift) -> Sequence {
    let players = 1 + below(random, FIRST_SEATS / 2);
    calls(
        FIRST_SEATS,
        joined(sequence, players, random),
        count,
        random,
    )
}

/// So many more, of so many seats.
fn calls(seats: usize, mut sequence: Sequence, count: usize, random: &mut Xorshift) -> Sequence {
    for _ in 0..count {
        let call = any_call(seats, &sequence.world, &sequence.map, random);
        sequence.call(call);
    }
    sequence
}

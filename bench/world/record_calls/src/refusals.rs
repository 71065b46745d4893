//! Every refusal but that of long walks, alone and two at once.

use crate::inputs::{hook, walk};
use crate::maps::{corridor, drawn};
use crate::sequence::Sequence;
use harness::tunings::TUNINGS;
use harness::{Call, SEATS};
use tile_map::Map;
use tile_map::maps::{open, room};

const ENDS: [i32; 2] = [i32::MIN, i32::MAX];

/// Clear in the room, and inside its wall.
const CLEAR: (i32, i32) = (80, 60);
const IN_WALL: (i32, i32) = (10, 10);

const FAR: i32 = 100_001;

/// One more than the last id.
const NO_SEAT: i32 = SEATS as i32;

/// One more than the last index.
const NO_TUNING: i32 = TUNINGS as i32;

pub fn refusal_sequences() -> Vec<Sequence> {
    let mut sequences: Vec<Sequence> = [room(), open(), corridor()].iter().map(sides).collect();
    sequences.push(shapes());
    sequences.push(ids());
    sequences.push(tunings());
    sequences.push(absent_and_present());
    sequences.push(not_clear());
    sequences.extend(drawn().iter().map(places));
    sequences.push(two_at_once_for_the_map());
    sequences.push(two_at_once());
    sequences
}

fn join(id: i32, (x, y): (i32, i32)) -> Call {
    Call::Join { id, x, y }
}

/// No sides of a map, and sides that the bytes do not fit.
fn wrong_sides(map: &Map) -> Vec<(u32, u32)> {
    let (width, height) = (map.width as u32, map.height as u32);
    vec![
        (0, 0),
        (0, height),
        (width, 0),
        (width - 1, height),
        (width, height - 1),
        (width + 1, height),
        (width, height + 1),
        (1024, height + 1),
        (width + 1, 1024),
        (1025, height),
        (width, 1025),
        // The products wrap to 0 and to the count in 32 bits.
        (0x1_0000, 0x1_0000),
        (width.wrapping_neg(), height.wrapping_neg()),
        (u32::MAX, u32::MAX),
        (0x8000_0000, height),
    ]
}

/// Of a step and of a join, before anybody came and in the middle of play.
fn sides(map: &Map) -> Sequence {
    let mut sequence = Sequence::on(map);
    let (mut x, y) = CLEAR;
    for turn in 0..2 {
        for wrong in wrong_sides(map) {
            sequence.with_sides(wrong, Call::Step);
            sequence.with_sides(wrong, join(turn, (x, y)));
        }
        sequence = sequence.join(turn, x, y).told(turn, walk(1)).steps(1);
        x += 40;
    }
    sequence
}

/// The same bytes as maps of several shapes.
fn shapes() -> Sequence {
    let mut sequence = Sequence::on(&room());
    for (id, width) in [1, 2, 4, 8, 16, 32, 64].into_iter().enumerate() {
        let sides = (width, 64 / width);
        sequence.with_sides(sides, join(id as i32, (50, 50)));
        sequence.with_sides(sides, join(id as i32 + 8, (48, 300)));
        sequence.with_sides(sides, Call::Step);
    }
    sequence
}

fn ids() -> Sequence {
    let mut sequence = Sequence::on(&open());
    for id in [-1, NO_SEAT, i32::MIN, i32::MAX, 0, 15, 255, 256] {
        sequence = sequence.leave(id).told(id, walk(-1)).join(id, 5, 5);
        sequence = sequence.told(id, hook(3, 4)).steps(1).leave(id);
    }
    sequence
}

fn tunings() -> Sequence {
    let mut sequence = Sequence::on(&open()).join(4, 0, 0);
    for index in [-1, NO_TUNING, NO_TUNING + 1, i32::MIN, i32::MAX, 0, 17] {
        for hundredths in [0, 7, -7, i32::MIN, i32::MAX] {
            sequence.call(Call::Tune { index, hundredths });
        }
        sequence = sequence.steps(1);
    }
    sequence
}

fn absent_and_present() -> Sequence {
    let mut sequence = Sequence::on(&room());
    for id in [9, 0, 15] {
        let (x, y) = CLEAR;
        sequence = sequence.leave(id).told(id, walk(1)).join(id, x, y);
        sequence = sequence.join(id, x, y).join(id, x + 3, y).steps(1);
        sequence = sequence.told(id, walk(1)).join(id, x, y).steps(1);
        sequence = sequence.leave(id).leave(id).told(id, walk(1)).steps(1);
    }
    sequence
}

/// At the edge of each wall of the room, to the last unit.
fn not_clear() -> Sequence {
    let mut sequence = Sequence::on(&room());
    for (id, (x, y)) in (0..).zip([(45, 60), (46, 60), (60, 45), (60, 46)]) {
        sequence = sequence.join(id, x, y);
    }
    for (id, (x, y)) in (4..).zip([(209, 60), (210, 60), (100, 82), (100, 81), (160, 209)]) {
        sequence = sequence.join(id, x, y);
    }
    sequence.steps(2)
}

/// Up to the limits, beyond them, and at the ends of i32.
fn places(map: &Map) -> Sequence {
    let mut sequence = Sequence::on(map);
    let limits = [100_000, FAR, -100_000, -FAR, ENDS[0], ENDS[1]];
    for (id, far) in (0..).zip(limits) {
        sequence = sequence.join(2 * id, far, 48).join(2 * id + 1, 70, far);
    }
    sequence
        .join(12, 100_000, -100_000)
        .join(13, -FAR, FAR)
        .steps(2)
}

/// Together with sides that are no map's.
fn two_at_once_for_the_map() -> Sequence {
    let mut sequence = Sequence::on(&room());
    sequence.call(join(3, CLEAR));
    for sides in [(8, 7), (0, 8), (1025, 1)] {
        sequence.with_sides(sides, join(NO_SEAT, CLEAR));
        sequence.with_sides(sides, join(4, (120, FAR)));
        sequence.with_sides(sides, join(4, IN_WALL));
        sequence.with_sides(sides, join(3, CLEAR));
        sequence.with_sides(sides, join(3, IN_WALL));
        sequence.with_sides(sides, join(-1, (FAR, 0)));
    }
    sequence.steps(1)
}

fn two_at_once() -> Sequence {
    let mut sequence = Sequence::on(&room());
    sequence.call(join(3, CLEAR));
    for id in [-1, NO_SEAT, i32::MIN, i32::MAX] {
        sequence = sequence.join(id, FAR, 60).join(id, IN_WALL.0, IN_WALL.1);
    }
    sequence = sequence.join(5, FAR, 60).join(3, 80, -FAR);
    sequence.call(join(3, IN_WALL));
    sequence.map = open();
    sequence.join(3, FAR, 60).join(3, ENDS[0], ENDS[1]).steps(1)
}

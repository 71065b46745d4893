//! Walks and jumps, and inputs at their ends.

use crate::inputs::{jump, nothing, walk};
use crate::maps::drawn;
use crate::sequence::Sequence;
use libtw2_gamenet::snap_obj::PlayerInput;
use tile_map::maps::{floor, room};

const ENDS: [i32; 5] = [0, 1, -1, i32::MIN, i32::MAX];

pub fn steering_sequences() -> Vec<Sequence> {
    let mut sequences = Vec::new();
    for button in [1, -1, i32::MIN, i32::MAX] {
        sequences.push(jumps(button));
    }
    for direction in [1, -1, 2, i32::MIN, i32::MAX] {
        sequences.push(walks(direction));
    }
    for turn in 0..ENDS.len() {
        sequences.push(ends(turn));
    }
    sequences.extend(drawn().iter().map(|map| Sequence::on(map).steps(2)));
    sequences
}

/// On the ground, in the air, in the air again, and after landing.
fn jumps(button: i32) -> Sequence {
    let mut sequence = Sequence::on(&floor()).join(1, 100, 82).steps(1);
    for pause in [1, 2, 1, 30] {
        sequence = sequence.told(1, jump(button)).steps(2);
        sequence = sequence.told(1, nothing()).steps(pause);
    }
    sequence.told(1, jump(button)).steps(3)
}

/// To the wall, and back with a jump.
fn walks(direction: i32) -> Sequence {
    let back = if direction > 0 { -1 } else { 1 };
    let input = PlayerInput {
        jump: 1,
        ..walk(back)
    };
    Sequence::on(&room())
        .join(13, 150, 60)
        .told(13, walk(direction))
        .steps(12)
        .told(13, input)
        .steps(8)
}

/// Each end in each place in turn.
fn ends(turn: usize) -> Sequence {
    let mut sequence = Sequence::on(&floor()).join(0, 100, 60).join(7, 180, 50);
    for start in 0..ENDS.len() {
        let mut values = ENDS.into_iter().cycle().skip(start).step_by(turn + 1);
        let mut next = || values.next().expect("a cycle has no end");
        let input = PlayerInput {
            direction: next(),
            target_x: next(),
            target_y: next(),
            jump: next(),
            hook: next(),
        };
        sequence = sequence.told(0, input).told(7, input).steps(3);
    }
    sequence
}

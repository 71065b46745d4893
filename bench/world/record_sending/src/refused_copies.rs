//! Copies whose small world goes too far where the true world does not.

use harness::tunings::{
    AIR_CONTROL_ACCEL, AIR_CONTROL_SPEED, GRAVITY, GROUND_CONTROL_ACCEL, GROUND_CONTROL_SPEED,
    HOOK_FIRE_SPEED, HOOK_LENGTH, PLAYER_COLLISION, RAMP_CURVATURE, RAMP_RANGE, RAMP_START,
};
use record_calls::Sequence;
use record_calls::inputs::{hook, nothing, walk};
use tile_map::Map;
use tile_map::maps::open;

pub fn refused_sequences() -> Vec<Sequence> {
    vec![
        held_back(),
        pushed_back(),
        lets_go(),
        stops(),
        stops_far_out(),
    ]
}

/// A wall at x = 224, and the ground at y = 96.
fn yard() -> Map {
    Map::from_rows(&["00000001", "00000001", "00000001", "11111111"])
}

/// A speed of 17.5 is too far; one of 15, which is that of a drag, is not.
fn ramped(sequence: Sequence) -> Sequence {
    sequence
        .tuned(RAMP_START, 0)
        .tuned(RAMP_RANGE, 7370)
        .tuned(RAMP_CURVATURE, 50)
}

/// Who runs reaches 20 at once.
fn fast(sequence: Sequence) -> Sequence {
    let sequence = sequence.tuned(GROUND_CONTROL_SPEED, 2000);
    sequence.tuned(GROUND_CONTROL_ACCEL, 2000)
}

/// One runs against the wall and another holds it back: its record does not change, and
/// is sent in every step.
fn held_back() -> Sequence {
    let start = Sequence::on(&yard())
        .join(0, 209, 81)
        .join(1, 109, 81)
        .told(0, walk(1))
        .told(1, hook(9, 0))
        .steps(3);
    ramped(fast(start)).steps(3).leave(1).steps(1)
}

/// Another is in the way.
fn pushed_back() -> Sequence {
    let start = Sequence::on(&yard())
        .join(9, 100, 81)
        .join(4, 130, 81)
        .told(9, walk(1))
        .steps(1);
    ramped(fast(start)).steps(1).told(9, nothing()).steps(2)
}

/// The copy's hook flies on, too far.
fn lets_go() -> Sequence {
    Sequence::on(&open())
        .join(6, 0, 0)
        .told(6, hook(9, 1))
        .steps(1)
        .tuned(HOOK_LENGTH, i32::MAX)
        .tuned(HOOK_FIRE_SPEED, i32::MAX)
        .told(6, nothing())
        .steps(3)
}

/// The copy runs on, too far.
fn stops() -> Sequence {
    let start = fast(Sequence::on(&yard()))
        .join(3, 40, 81)
        .told(3, walk(1))
        .steps(2);
    ramped(start).told(3, nothing()).steps(2)
}

/// The copy's way is too long for the player walk alone, and without player collision for
/// none.
fn stops_far_out() -> Sequence {
    Sequence::on(&open())
        .tuned(GRAVITY, 0)
        .tuned(AIR_CONTROL_SPEED, 65_535)
        .tuned(AIR_CONTROL_ACCEL, 65_535)
        .join(2, 99_900, 50)
        .join(7, 99_900, 90)
        .told(2, walk(1))
        .told(7, walk(1))
        .steps(1)
        .tuned(RAMP_START, 0)
        .tuned(RAMP_RANGE, 3_276_750)
        .tuned(RAMP_CURVATURE, 1)
        .told(2, nothing())
        .told(7, nothing())
        .steps(1)
        .tuned(PLAYER_COLLISION, 0)
        .steps(1)
}

//! Tunings between two steps: what is on its way goes on by the new ones, on both sides.

use harness::tunings::{
    AIR_FRICTION, GRAVITY, GROUND_CONTROL_SPEED, HOOK_DRAG_ACCEL, HOOK_DRAG_SPEED, HOOK_FIRE_SPEED,
    HOOK_HOLD, HOOK_LENGTH, ORDINARY, PLAYER_COLLISION, PLAYER_HOOKING,
};
use libtw2_gamenet::snap_obj::PlayerInput;
use record_calls::Sequence;
use record_calls::inputs::{hook, jump, walk};
use tile_map::maps::{floor, open};

pub fn tuning_sequences() -> Vec<Sequence> {
    let mut sequences = vec![
        in_flight(),
        while_held(),
        nothing_changes(),
        before_anybody(),
    ];
    sequences.extend([0, i32::MAX].map(every_one));
    sequences.extend([1, 3, 4, 60].map(hold_while_held));
    sequences
}

/// The hook is out, and is then faster, slower, cut to its length, and back.
fn in_flight() -> Sequence {
    Sequence::on(&open())
        .join(5, 0, 0)
        .told(5, hook(3, -9))
        .tuned(HOOK_FIRE_SPEED, 1000)
        .steps(3)
        .tuned(HOOK_FIRE_SPEED, 4000)
        .steps(2)
        .tuned(HOOK_LENGTH, 12_000)
        .steps(2)
        .tuned(HOOK_LENGTH, ORDINARY[HOOK_LENGTH])
        .steps(3)
}

/// Of one who is dragged and of one who drags.
fn while_held() -> Sequence {
    Sequence::on(&floor())
        .join(1, 60, 60)
        .join(2, 260, 60)
        .told(1, hook(9, 0))
        .told(2, hook(-1, 9))
        .steps(3)
        .tuned(HOOK_DRAG_ACCEL, 900)
        .steps(2)
        .tuned(HOOK_DRAG_SPEED, 100)
        .tuned(GRAVITY, -50)
        .steps(4)
}

/// The copy counts by the same hold, and is not dragged since player hooking is off. What is no
/// hold is not passed along.
fn hold_while_held(hold: i32) -> Sequence {
    Sequence::on(&open())
        .join(4, 0, 0)
        .join(8, 100, 0)
        .told(4, hook(9, 0))
        .steps(1)
        .tuned(PLAYER_HOOKING, 0)
        .steps(2)
        .tuned(HOOK_HOLD, 61)
        .tuned(HOOK_HOLD, hold)
        .steps(3)
        .tuned(HOOK_HOLD, 0)
        .tuned(HOOK_HOLD, 60)
        .steps(2)
}

/// The same value again, with players in every state; and others that nobody meets.
fn nothing_changes() -> Sequence {
    let mut sequence = Sequence::on(&floor())
        .join(0, 100, 60)
        .join(1, 300, 60)
        .told(0, walk(1))
        .told(1, jump(1))
        .steps(2);
    for (index, hundredths) in ORDINARY.into_iter().enumerate() {
        sequence = sequence.tuned(index, hundredths);
    }
    sequence
        .steps(2)
        .tuned(HOOK_DRAG_SPEED, 7)
        .tuned(PLAYER_COLLISION, 50)
        .steps(2)
}

/// With nobody there, also twice: the first message comes later.
fn before_anybody() -> Sequence {
    Sequence::on(&open())
        .tuned(GRAVITY, 200)
        .tuned(GRAVITY, 100)
        .steps(1)
        .tuned(AIR_FRICTION, 50)
        .join(9, 10, 10)
        .tuned(GRAVITY, 25)
        .steps(2)
        .tuned(GROUND_CONTROL_SPEED, 1)
        .steps(2)
        .leave(9)
        .tuned(GRAVITY, 30)
        .join(9, 10, 10)
        .steps(2)
}

/// One after another, each put back after a step. Somebody holds another.
fn every_one(hundredths: i32) -> Sequence {
    let input = PlayerInput { jump: 1, ..walk(1) };
    let mut sequence = Sequence::on(&floor())
        .join(0, 100, 82)
        .join(1, 130, 82)
        .join(2, 130, 20)
        .told(1, input)
        .told(2, hook(-30, 62))
        .steps(1);
    for (index, ordinary) in ORDINARY.into_iter().enumerate() {
        sequence = sequence.tuned(index, hundredths).steps(1);
        sequence = sequence.tuned(index, ordinary);
    }
    sequence.steps(1)
}

//! Steps in which a walk is long: as long as runs, and longer.

use crate::inputs::{hook, nothing, walk};
use crate::sequence::Sequence;
use harness::Call;
use harness::tunings::{
    GRAVITY, HOOK_DRAG_ACCEL, HOOK_DRAG_SPEED, HOOK_FIRE_SPEED, HOOK_LENGTH, PLAYER_COLLISION,
    RAMP_CURVATURE, RAMP_RANGE, RAMP_START,
};
use tile_map::Map;
use tile_map::maps::{floor, open};

/// From the third on they are too far for one tick.
const FIRE_SPEEDS: [i32; 5] = [6_000_000, 6_553_599, 6_553_600, 6_553_601, i32::MAX];

/// About 65,535.5, from which on a box walks too far.
const DRAG_SPEEDS: [i32; 6] = [
    6_500_000,
    6_553_449,
    6_553_500,
    6_553_549,
    6_553_550,
    i32::MAX,
];

pub fn too_far_sequences() -> Vec<Sequence> {
    let mut sequences = Vec::new();
    for map in [open(), floor()] {
        sequences.extend(FIRE_SPEEDS.map(|speed| line(&map, speed)));
    }
    for (start, side) in [(0, 1), (99_900, 1), (-99_900, -1)] {
        for speed in DRAG_SPEEDS {
            for collision in [0, 100] {
                sequences.push(dragged([2, 3], start, side, speed, collision));
            }
        }
        sequences.push(dragged([3, 2], start, side, i32::MAX, 100));
    }
    sequences.extend([(50, 1), (1, 100), (99, 1), (-50, 1), (50, -1)].map(ramp));
    sequences.push(length_cut());
    sequences.push(too_fast_to_move());
    sequences
}

/// The third fires; the others walk and are not changed by a step that is refused.
fn line(map: &Map, fire_speed: i32) -> Sequence {
    let mut sequence = Sequence::on(map)
        .join(0, 60, 20)
        .join(1, -42, 50)
        .join(2, 120, 30)
        .told(0, walk(1))
        .told(1, hook(100, 0))
        .told(2, walk(-1))
        .tuned(HOOK_LENGTH, i32::MAX)
        .steps(1)
        .told(1, nothing())
        .tuned(HOOK_FIRE_SPEED, fire_speed)
        .steps(1)
        .told(1, hook(100, 0))
        .steps(2);
    sequence.with_sides((2, 64), Call::Step);
    sequence.told(1, nothing()).steps(1)
}

/// One holds another and drags it, who has ticked before or has not.
fn dragged(
    [held, holder]: [i32; 2],
    start: i32,
    side: i32,
    speed: i32,
    collision: i32,
) -> Sequence {
    let mut sequence = Sequence::on(&open())
        .tuned(GRAVITY, 0)
        .tuned(RAMP_CURVATURE, 100)
        .tuned(HOOK_DRAG_ACCEL, i32::MAX)
        .tuned(HOOK_DRAG_SPEED, speed)
        .tuned(PLAYER_COLLISION, collision)
        .join(held, start, 50)
        .join(holder, start + 100 * side, 50)
        .join(0, 20, -200)
        .told(0, walk(-1))
        .told(holder, hook(-side, 0))
        .steps(2);
    sequence.with_sides((0, 1), Call::Step);
    sequence.leave(holder).steps(1).leave(held).steps(1)
}

/// A ramp that speeds up, without limit or nearly so.
fn ramp((curvature, range): (i32, i32)) -> Sequence {
    let mut sequence = Sequence::on(&floor())
        .join(1, 40, 20)
        .join(6, 90, 70)
        .told(6, walk(1))
        .steps(2)
        .tuned(RAMP_START, 0)
        .tuned(RAMP_RANGE, range)
        .tuned(RAMP_CURVATURE, curvature)
        .steps(2);
    sequence.with_sides((16, 0), Call::Step);
    sequence
        .told(6, nothing())
        .steps(1)
        .tuned(RAMP_CURVATURE, 140)
        .steps(2)
}

/// The ramp leaves nothing of the way, and the record holds all that fits of the velocity.
fn too_fast_to_move() -> Sequence {
    Sequence::on(&open())
        .tuned(GRAVITY, 0)
        .tuned(HOOK_DRAG_ACCEL, i32::MAX)
        .tuned(HOOK_DRAG_SPEED, i32::MAX)
        .join(2, 0, 50)
        .join(3, 100, 50)
        .told(3, hook(-1, 0))
        .steps(3)
}

/// A hook that flew far is cut to its length from behind.
fn length_cut() -> Sequence {
    Sequence::on(&open())
        .join(5, 0, 0)
        .tuned(HOOK_LENGTH, i32::MAX)
        .tuned(HOOK_FIRE_SPEED, 6_000_000)
        .told(5, hook(0, -9))
        .steps(2)
        .tuned(HOOK_LENGTH, 38000)
        .steps(1)
        .tuned(HOOK_LENGTH, -38000)
        .steps(1)
        .tuned(HOOK_LENGTH, 11_000_000)
        .steps(5)
}

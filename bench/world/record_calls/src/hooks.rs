//! Hooks on walls and on players, held until they end.

use crate::inputs::{hook, nothing, walk};
use crate::sequence::Sequence;
use harness::tunings::{PLAYER_COLLISION, PLAYER_HOOKING};
use libtw2_gamenet::snap_obj::PlayerInput;
use tile_map::maps::{floor, open, pillars, room};

/// Steps after which a hook lets go of a player.
const GRAB_STEPS: usize = 60;

pub fn hook_sequences() -> Vec<Sequence> {
    let mut sequences = vec![held_long(1), held_long(-3)];
    for target in [(0, 9), (9, 9), (-9, 9), (-9, 1), (3, -9), (0, 0), (40, 7)] {
        sequences.push(at_walls(target));
        sequences.push(in_the_room(target));
    }
    for tunings in [(100, 100), (0, 100), (100, 0), (-1, -1)] {
        sequences.push(ring(tunings));
        sequences.push(both_at_one(tunings));
    }
    sequences
}

/// Lets go by itself, and fires again only after a pause.
fn held_long(button: i32) -> Sequence {
    let input = PlayerInput {
        hook: button,
        ..hook(-10, 1)
    };
    Sequence::on(&floor())
        .join(3, 60, 60)
        .join(11, 300, 60)
        .told(11, input)
        .steps(GRAB_STEPS + 6)
        .told(11, nothing())
        .steps(1)
        .told(11, input)
        .steps(3)
}

/// At Normal and Unhookable tiles, and away from both.
fn at_walls((x, y): (i32, i32)) -> Sequence {
    Sequence::on(&floor())
        .join(0, 200, 30)
        .join(1, 330, 30)
        .told(0, hook(x, y))
        .told(1, hook(x, y))
        .steps(9)
        .told(0, walk(1))
        .steps(1)
        .told(
            0,
            PlayerInput {
                direction: -1,
                ..hook(-x, y)
            },
        )
        .steps(4)
}

fn in_the_room((x, y): (i32, i32)) -> Sequence {
    Sequence::on(&room())
        .join(2, 60, 60)
        .join(14, 140, 70)
        .told(
            2,
            PlayerInput {
                direction: 1,
                ..hook(x, -y)
            },
        )
        .told(
            14,
            PlayerInput {
                jump: 1,
                ..hook(-x, -y)
            },
        )
        .steps(12)
}

/// Each on the next.
fn ring((collision, hooking): (i32, i32)) -> Sequence {
    Sequence::on(&open())
        .tuned(PLAYER_COLLISION, collision)
        .tuned(PLAYER_HOOKING, hooking)
        .join(1, 0, 0)
        .join(4, 150, 0)
        .join(7, 70, -120)
        .told(1, hook(150, 0))
        .told(4, hook(-80, -120))
        .told(7, hook(-70, 120))
        .steps(12)
}

/// Two on the same one, who holds on to a wall.
fn both_at_one((collision, hooking): (i32, i32)) -> Sequence {
    Sequence::on(&pillars())
        .tuned(PLAYER_COLLISION, collision)
        .tuned(PLAYER_HOOKING, hooking)
        .join(8, 60, 60)
        .join(0, 200, 60)
        .join(15, 60, -60)
        .told(8, hook(-3, 9))
        .told(0, hook(-140, 0))
        .told(15, hook(0, 120))
        .steps(14)
}

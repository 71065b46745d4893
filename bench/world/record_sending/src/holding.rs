//! Hooks on walls, on players and on nothing, with player collision and hooking on and off.

use harness::tunings::{PLAYER_COLLISION, PLAYER_HOOKING};
use libtw2_gamenet::snap_obj::PlayerInput;
use record_calls::Sequence;
use record_calls::inputs::{hook, nothing};
use tile_map::maps::{floor, open, pillars, room};

/// Player collision and hooking.
const TUNINGS: [(i32, i32); 4] = [(100, 100), (0, 100), (100, 0), (0, 0)];

/// Steps after which a hook lets go of a player.
const GRAB_STEPS: usize = 60;

pub fn holding_sequences() -> Vec<Sequence> {
    let mut sequences = vec![held_long(), at_walls(), in_the_room()];
    for tunings in TUNINGS {
        sequences.push(ring(tunings));
        sequences.push(both_at_one(tunings));
        sequences.push(side_by_side(tunings));
    }
    sequences
}

/// Lets go by itself; alone the copy counts the same ticks.
fn held_long() -> Sequence {
    Sequence::on(&floor())
        .join(3, 60, 60)
        .join(11, 300, 60)
        .told(11, hook(-10, 1))
        .steps(GRAB_STEPS + 6)
        .told(11, nothing())
        .steps(2)
}

/// Flies, holds on and is let go as its copy's; one holds nowhere.
fn at_walls() -> Sequence {
    Sequence::on(&floor())
        .join(0, 100, 30)
        .join(1, 330, 30)
        .told(0, hook(3, 9))
        .told(1, hook(3, 9))
        .steps(10)
        .told(0, hook(-3, 9))
        .told(1, nothing())
        .steps(3)
        .told(0, nothing())
        .steps(2)
}

fn in_the_room() -> Sequence {
    let run = PlayerInput {
        direction: 1,
        jump: 1,
        ..hook(4, -9)
    };
    Sequence::on(&room())
        .join(2, 60, 60)
        .join(14, 140, 70)
        .told(2, run)
        .told(14, hook(-9, -1))
        .steps(14)
}

/// Each on the next.
fn ring((collision, hooking): (i32, i32)) -> Sequence {
    Sequence::on(&open())
        .tuned(PLAYER_COLLISION, collision)
        .tuned(PLAYER_HOOKING, hooking)
        .join(1, 0, 0)
        .join(4, 150, 0)
        .join(7, 70, -120)
        .told(1, hook(150, 0))
        .told(4, hook(-80, -120))
        .told(7, hook(-70, 120))
        .steps(9)
}

/// Two on the same one, who holds on to a wall.
fn both_at_one((collision, hooking): (i32, i32)) -> Sequence {
    Sequence::on(&pillars())
        .tuned(PLAYER_COLLISION, collision)
        .tuned(PLAYER_HOOKING, hooking)
        .join(8, 60, 60)
        .join(0, 200, 60)
        .join(15, 60, -60)
        .told(8, hook(-3, 9))
        .told(0, hook(-140, 0))
        .told(15, hook(0, 120))
        .steps(8)
}

/// Two in one place and one beside them, each of whom stands.
fn side_by_side((collision, hooking): (i32, i32)) -> Sequence {
    Sequence::on(&floor())
        .tuned(PLAYER_COLLISION, collision)
        .tuned(PLAYER_HOOKING, hooking)
        .join(5, 100, 81)
        .join(6, 100, 81)
        .join(7, 120, 81)
        .steps(5)
        .tuned(PLAYER_COLLISION, 0)
        .tuned(PLAYER_HOOKING, 0)
        .steps(4)
}

//! Inputs that seats make, for themselves and for others.

use crate::asks::{input, reads};
use crate::sequence::RoleSequence;
use harness::SEATS;
use harness::roles::{BOARD, REFEREE};
use libtw2_gamenet::snap_obj::PlayerInput;
use record_calls::Sequence;
use record_calls::inputs::{hook, jump, walk};
use tile_map::maps::floor;

const LAST: i32 = SEATS as i32 - 1;
const ABSENT: i32 = 9;

const ROLES: [i32; 8] = [REFEREE, 0, LAST, ABSENT, LAST + 1, BOARD, -3, i32::MIN];

/// Present, absent, and of no seat: among them the numbers of roles.
const IDS: [i32; 8] = [0, 3, LAST, ABSENT, LAST + 1, REFEREE, BOARD, -3];

pub fn input_sequences() -> Vec<RoleSequence> {
    vec![all_for_all(), own()]
}

fn three() -> RoleSequence {
    let start = Sequence::on(&floor())
        .join(0, 40, 81)
        .join(3, 160, 81)
        .join(LAST, 280, 60)
        .steps(1);
    RoleSequence::refereed(&start)
}

/// Each is told something else.
fn all_for_all() -> RoleSequence {
    let mut sequence = three();
    for (turn, role) in (1..).zip(ROLES) {
        for (target_y, id) in (1..).zip(IDS) {
            let target_x = 10 * turn;
            let wanted = PlayerInput {
                target_x,
                target_y,
                ..walk(turn % 3 - 1)
            };
            sequence = sequence.ask(role, input(id, wanted));
        }
    }
    sequence.steps(1)
}

/// What a seat wants is what its next steps do; the last that was told counts.
fn own() -> RoleSequence {
    let mut sequence = three();
    for (id, wanted) in [(0, walk(1)), (3, jump(1)), (LAST, hook(-9, 1))] {
        sequence = sequence
            .ask(id, input(id, walk(-1)))
            .ask(id, input(id, wanted))
            .ask(3, input(0, hook(5, 5)))
            .all(REFEREE, reads(id))
            .steps(2);
    }
    sequence
}

//! Each role asks everything that there is.

use crate::asks::{input, join, leave, reads, step, tune};
use crate::sequence::RoleSequence;
use harness::SEATS;
use harness::roles::{Ask, BOARD, REFEREE};
use harness::tunings::GRAVITY;
use libtw2_gamenet::snap_obj::PlayerInput;
use record_calls::Sequence;
use record_calls::inputs::{hook, walk};
use tile_map::maps::floor;

/// Two who are present.
const ONE: i32 = 3;
const OTHER: i32 = 5;
const ABSENT: i32 = 9;

const ROLES: [i32; 9] = [
    REFEREE,
    BOARD,
    ONE,
    OTHER,
    SEATS as i32 - 1,
    SEATS as i32,
    i32::MAX,
    -3,
    i32::MIN,
];

pub fn each_role_sequences() -> Vec<RoleSequence> {
    ROLES.map(everything).into()
}

/// One stands, the other falls; the referee looks in the end.
fn everything(role: i32) -> RoleSequence {
    let index = GRAVITY as i32;
    let start = Sequence::on(&floor())
        .join(ONE, 40, 81)
        .join(OTHER, 160, 20)
        .told(OTHER, hook(-9, 5))
        .steps(2);
    let wanted = PlayerInput { jump: 1, ..walk(1) };
    RoleSequence::refereed(&start)
        .all(role, reads(ONE))
        .ask(role, Ask::Tuning { index })
        .ask(role, input(ONE, wanted))
        .ask(role, tune(index, 75))
        .ask(role, join(ABSENT, (90, 50)))
        .ask(role, step())
        .ask(role, leave(OTHER))
        .all(REFEREE, reads(ONE))
        .steps(1)
}

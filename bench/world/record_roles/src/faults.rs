//! Calls and reads that would be refused for other reasons too, by every role.

use crate::asks::{input, join, leave, reads, step, tune};
use crate::sequence::RoleSequence;
use harness::SEATS;
use harness::roles::{Ask, BOARD, REFEREE};
use harness::tunings::{HOOK_FIRE_SPEED, HOOK_HOLD, HOOK_LENGTH, TUNINGS};
use record_calls::Sequence;
use record_calls::inputs::{hook, walk};
use tile_map::maps::room;

/// Two who are present.
const ONE: i32 = 3;
const OTHER: i32 = 5;
const ABSENT: i32 = 9;
const NO_SEAT: i32 = SEATS as i32;

/// The referee is refused for the other reasons.
const ROLES: [i32; 6] = [REFEREE, BOARD, ONE, ABSENT, NO_SEAT, -3];

const NO_SIDES: (u32, u32) = (8, 7);

/// Clear in the room, inside its wall, and out of reach.
const CLEAR: (i32, i32) = (80, 60);
const IN_WALL: (i32, i32) = (10, 10);
const FAR: (i32, i32) = (100_001, 60);

pub fn fault_sequences() -> Vec<RoleSequence> {
    ROLES.map(faults).into()
}

fn faults(role: i32) -> RoleSequence {
    let start = Sequence::on(&room())
        .join(ONE, 80, 60)
        .join(OTHER, 130, 60)
        .steps(1);
    let mut sequence = RoleSequence::refereed(&start);
    sequence.with_sides(NO_SIDES, role, join(ABSENT, CLEAR));
    sequence.with_sides(NO_SIDES, role, step());
    sequence = sequence
        .ask(role, join(NO_SEAT, CLEAR))
        .ask(role, join(ABSENT, FAR))
        .ask(role, join(ABSENT, IN_WALL))
        .ask(role, join(ONE, CLEAR));
    for id in [ABSENT, NO_SEAT] {
        sequence = sequence
            .ask(role, leave(id))
            .ask(role, input(id, walk(-1)))
            .all(role, reads(id));
    }
    for index in [TUNINGS as i32, -1] {
        let asks = [tune(index, 7), Ask::Tuning { index }];
        sequence = sequence.all(role, asks);
    }
    for no_hold in [0, 61] {
        sequence = sequence.ask(role, tune(HOOK_HOLD as i32, no_hold));
    }
    too_far(sequence, role)
}

/// A step that is refused as too far, and is not from then on.
fn too_far(sequence: RoleSequence, role: i32) -> RoleSequence {
    let longest = [HOOK_LENGTH, HOOK_FIRE_SPEED].map(|index| tune(index as i32, i32::MAX));
    sequence
        .all(REFEREE, longest)
        .ask(REFEREE, input(OTHER, hook(9, -1)))
        .ask(role, step())
        .ask(REFEREE, input(OTHER, walk(1)))
        .ask(role, step())
        .all(REFEREE, reads(OTHER))
}

//! Reads of everybody who is there and who is not, and of every tuning.

use crate::asks::{reads, tune};
use crate::sequence::RoleSequence;
use harness::SEATS;
use harness::roles::{Ask, BOARD, REFEREE};
use harness::tunings::{GRAVITY, HOOK_HOLD, TUNINGS};
use record_calls::Sequence;
use record_calls::inputs::{hook, walk};
use tile_map::maps::floor;

const LAST: i32 = SEATS as i32 - 1;

/// Who stands, who falls, who is absent, and none.
const IDS: [i32; 6] = [3, LAST, 9, LAST + 1, -1, i32::MIN];

const INDEXES: [i32; 4] = [0, TUNINGS as i32 - 1, TUNINGS as i32, -1];

pub fn read_sequences() -> Vec<RoleSequence> {
    let mut sequences: Vec<_> = [BOARD, REFEREE, 3].map(of_all).into();
    sequences.push(between_calls());
    sequences.push(holds());
    sequences
}

fn of_all(role: i32) -> RoleSequence {
    let start = Sequence::on(&floor())
        .join(3, 40, 81)
        .join(LAST, 160, 10)
        .told(3, walk(1))
        .told(LAST, hook(-9, 9))
        .steps(2);
    let of_tunings = INDEXES.map(|index| Ask::Tuning { index });
    RoleSequence::refereed(&start)
        .all(role, IDS.into_iter().flat_map(reads))
        .all(role, of_tunings)
}

/// From the join to the leave: what a call changes is read at once, and nothing else is.
fn between_calls() -> RoleSequence {
    let calls = Sequence::on(&floor())
        .join(7, 40, 60)
        .steps(1)
        .told(7, hook(9, -9))
        .tuned(GRAVITY, 0)
        .steps(3)
        .leave(7)
        .join(7, 90, 81)
        .steps(1);
    let mut sequence = RoleSequence::on(&calls.map);
    for line in calls.lines {
        sequence = sequence
            .ask(REFEREE, Ask::Call(line.call))
            .ask(BOARD, Ask::Record { id: 7 })
            .ask(BOARD, Ask::FloorMark { id: 7 })
            .ask(REFEREE, Ask::StoredInput { id: 7 });
    }
    sequence
}

/// Before and after a tune, whoever asks for it, and while somebody is held.
fn holds() -> RoleSequence {
    let start = Sequence::on(&floor())
        .join(3, 60, 60)
        .join(5, 160, 60)
        .told(5, hook(-9, 0))
        .steps(3);
    let index = HOOK_HOLD as i32;
    let reads = [Ask::Tuning { index }, Ask::Record { id: 5 }];
    let mut sequence = RoleSequence::refereed(&start);
    for (role, hold) in [
        (BOARD, 1),
        (5, 1),
        (REFEREE, 4),
        (REFEREE, 61),
        (REFEREE, 0),
    ] {
        sequence = sequence.ask(role, tune(index, hold)).all(REFEREE, reads);
    }
    for _ in 0..2 {
        sequence = sequence.steps(1).all(REFEREE, reads);
    }
    sequence.ask(BOARD, reads[0]).ask(5, reads[0])
}

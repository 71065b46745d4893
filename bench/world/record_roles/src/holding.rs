//! Who is held leaves or dies, if the role allows it; the holder's record says so at once.

use crate::asks::{input, join, leave, step};
use crate::sequence::RoleSequence;
use harness::SEATS;
use harness::roles::{Ask, BOARD, REFEREE};
use record_calls::Sequence;
use record_calls::inputs::{hook, nothing, walk};
use tile_map::Map;
use tile_map::maps::floor;

const LAST: i32 = SEATS as i32 - 1;

pub fn holding_sequences() -> Vec<RoleSequence> {
    let mut sequences: Vec<_> = [(0, 6), (12, 6), (LAST, 0)].map(leaves).into();
    sequences.extend([dies(), lets_go()]);
    sequences
}

fn held((holder, held): (i32, i32)) -> RoleSequence {
    let start = Sequence::on(&floor())
        .join(holder, 40, 60)
        .join(held, 160, 60)
        .told(holder, hook(9, 0))
        .told(held, walk(1))
        .steps(3);
    RoleSequence::refereed(&start)
}

/// At first nobody may who asks for it. Somebody else comes under the same id.
fn leaves((holder, left): (i32, i32)) -> RoleSequence {
    let of_holder = Ask::Record { id: holder };
    let mut sequence = held((holder, left)).ask(BOARD, of_holder);
    for role in [left, holder, BOARD, -3, i32::MIN] {
        sequence = sequence.ask(role, leave(left));
    }
    sequence
        .ask(BOARD, of_holder)
        .steps(1)
        .ask(REFEREE, leave(left))
        .ask(BOARD, of_holder)
        .ask(BOARD, Ask::Record { id: left })
        .ask(left, input(left, walk(1)))
        .steps(1)
        .ask(REFEREE, join(left, (100, 40)))
        .ask(BOARD, Ask::Record { id: left })
        .ask(left, input(left, walk(-1)))
        .steps(2)
        .ask(BOARD, of_holder)
}

/// On spikes: the step's own records still tell the grab.
fn dies() -> RoleSequence {
    let (holder, dying, higher) = (2, 7, 11);
    let start = Sequence::on(&Map::from_rows(&["000", "020", "000"]))
        .join(holder, -20, 48)
        .join(dying, 77, 48)
        .join(higher, 110, 48)
        .told(holder, hook(9, 0));
    RoleSequence::refereed(&start)
        .ask(higher, input(higher, hook(-9, 0)))
        .ask(dying, step())
        .steps(1)
        .all(BOARD, [holder, dying, higher].map(|id| Ask::Record { id }))
        .ask(dying, input(dying, walk(1)))
        .steps(1)
        .all(
            BOARD,
            [holder, dying, higher].map(|id| Ask::FloorMark { id }),
        )
}

/// Only the holder's seat lets go, and not before the next step.
fn lets_go() -> RoleSequence {
    let of_holder = Ask::Record { id: 1 };
    let mut sequence = held((1, 4));
    for role in [4, BOARD, -3, 1] {
        let asks = [input(1, nothing()), of_holder];
        sequence = sequence.all(role, asks).ask(BOARD, of_holder).steps(1);
    }
    sequence.ask(BOARD, of_holder)
}

//! Ids up to the last seat and across the sixteenth, and every seat taken at once.

use crate::inputs::{hook, jump, nothing, walk};
use crate::sequence::Sequence;
use harness::SEATS;
use harness::draw::FIRST_SEATS;
use tile_map::Map;
use tile_map::maps::{floor, open};

const LAST: i32 = SEATS as i32 - 1;

/// The first of those beyond the first seats.
const BEYOND: i32 = FIRST_SEATS as i32;

/// About the sixteenth and about the last; no seat has the last of these.
pub const EDGES: [i32; 6] = [BEYOND - 1, BEYOND, BEYOND + 1, LAST - 1, LAST, SEATS as i32];

/// Who holds and who is held.
const PAIRS: [(i32, i32); 4] = [
    (LAST, 0),
    (0, LAST),
    (BEYOND - 1, BEYOND),
    (BEYOND, BEYOND - 1),
];

pub fn seat_sequences() -> Vec<Sequence> {
    let mut sequences = vec![one_by_one()];
    sequences.extend(PAIRS.map(held));
    sequences.extend([each_other(), as_near(), last_dies()]);
    sequences.extend([one_place(), crowd(), everybody()]);
    sequences
}

fn joined(sequence: Sequence, place: impl Fn(i32) -> (i32, i32)) -> Sequence {
    (0..SEATS as i32).fold(sequence, |sequence, id| {
        let (x, y) = place(id);
        sequence.join(id, x, y)
    })
}

/// Each comes, walks, hooks the next one and leaves; who is held leaves before the holder.
fn one_by_one() -> Sequence {
    let mut sequence = Sequence::on(&floor());
    for (id, x) in EDGES.into_iter().zip((40..).step_by(60)) {
        sequence = sequence.leave(id).told(id, walk(-1)).join(id, x, 81);
        sequence = sequence.told(id, walk(1)).steps(1);
    }
    for id in EDGES {
        sequence = sequence.told(id, hook(9, 0)).steps(1);
    }
    for id in EDGES.into_iter().rev() {
        sequence = sequence.leave(id).steps(1);
    }
    sequence
}

/// Who is held has ticked before the holder, or ticks after it. It leaves and comes back.
fn held((holder, held): (i32, i32)) -> Sequence {
    Sequence::on(&floor())
        .join(holder, 60, 81)
        .join(held, 200, 81)
        .told(holder, hook(9, 0))
        .told(held, walk(1))
        .steps(4)
        .leave(held)
        .steps(2)
        .join(held, 160, 81)
        .steps(2)
}

/// The first and the last, from the same step on.
fn each_other() -> Sequence {
    Sequence::on(&open())
        .join(LAST, 120, 0)
        .join(0, 0, 0)
        .told(LAST, hook(-9, 0))
        .told(0, hook(9, 0))
        .steps(4)
}

/// Of two who are as near the lower id is grabbed, whoever came first.
fn as_near() -> Sequence {
    let mut sequence = Sequence::on(&open());
    for (turn, [holder, lower, higher]) in (0..).zip([
        [40, 0, LAST],
        [8, BEYOND - 1, BEYOND],
        [50, BEYOND + 1, LAST - 1],
    ]) {
        let x = 1000 * turn;
        sequence = sequence
            .join(higher, x + 82, 20)
            .join(lower, x + 82, -20)
            .join(holder, x, 0)
            .told(holder, hook(9, 0));
    }
    sequence.steps(2)
}

/// By spikes, held by two and holding a third; and comes back. The button must be let go
/// before a holder fires again.
fn last_dies() -> Sequence {
    Sequence::on(&Map::from_rows(&["000", "020", "000"]))
        .join(0, -20, 48)
        .join(LAST, 77, 48)
        .join(BEYOND, 110, 48)
        .join(BEYOND - 1, 77, -50)
        .told(0, hook(9, 0))
        .told(LAST, hook(0, -9))
        .told(BEYOND, hook(-9, 0))
        .steps(2)
        .join(LAST, 77, 90)
        .told(0, nothing())
        .steps(1)
        .told(0, hook(97, 40))
        .steps(2)
}

/// Then some go, and push and hold the others.
fn one_place() -> Sequence {
    joined(Sequence::on(&floor()), |_| (200, 81))
        .steps(1)
        .told(0, walk(1))
        .told(BEYOND - 1, hook(0, -9))
        .told(BEYOND, jump(1))
        .told(LAST, walk(-1))
        .steps(4)
}

/// Four rows, the first of them the first seats. Hooks go down from it and up to it, and up
/// from the last; two who are held leave.
fn crowd() -> Sequence {
    let start = joined(Sequence::on(&floor()), |id| {
        (20 + 30 * (id % BEYOND), 45 * (id / BEYOND) - 80)
    });
    let half = BEYOND / 2;
    let told = |sequence: Sequence, id| {
        let down = if id < BEYOND { 9 } else { -9 };
        sequence.told(id, hook(0, down))
    };
    (half..BEYOND + half)
        .chain(LAST - 3..=LAST)
        .fold(start, told)
        .steps(8)
        .leave(BEYOND + half)
        .leave(0)
        .steps(3)
}

/// On a map of one tile, so that everybody dies at once. The last one comes back.
fn everybody() -> Sequence {
    joined(Sequence::on(&Map::from_rows(&["2"])), |id| {
        (90 * id - 3000, 30 * (id % 3))
    })
    .told(LAST, hook(-9, 0))
    .steps(2)
    .join(LAST, 7, 7)
    .steps(1)
}

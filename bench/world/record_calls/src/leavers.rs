//! Who is held leaves, and somebody else comes under the same id.

use crate::inputs::{hook, nothing, walk};
use crate::sequence::Sequence;
use tile_map::maps::{floor, open};

pub fn leaver_sequences() -> Vec<Sequence> {
    let mut sequences = Vec::new();
    for holder in [0, 12] {
        for (x, y) in [(100, 60), (250, -90), (-300, 40), (46, 61)] {
            sequences.push(replaced(holder, x, y));
        }
    }
    sequences.push(both_leave());
    sequences.push(holder_leaves());
    sequences
}

/// The holder's hook lets the newcomer alone, wherever it is.
fn replaced(holder: i32, x: i32, y: i32) -> Sequence {
    let held = 6;
    Sequence::on(&floor())
        .join(holder, 40, 60)
        .join(held, 160, 60)
        .told(holder, hook(120, 0))
        .told(held, walk(1))
        .steps(3)
        .leave(held)
        .steps(3)
        .join(held, x, y)
        .steps(5)
        .told(held, hook(-9, 2))
        .steps(2)
        .leave(held)
        .steps(1)
}

/// Each held the other; the world is empty between.
fn both_leave() -> Sequence {
    Sequence::on(&open())
        .join(2, 0, 0)
        .join(5, 140, 10)
        .told(2, hook(140, 10))
        .told(5, hook(-140, -10))
        .steps(3)
        .leave(5)
        .leave(2)
        .steps(2)
        .join(5, 140, 10)
        .join(2, 0, 0)
        .steps(3)
}

fn holder_leaves() -> Sequence {
    Sequence::on(&open())
        .join(9, 0, 0)
        .join(10, 140, 10)
        .told(9, hook(140, 10))
        .steps(3)
        .leave(9)
        .steps(2)
        .join(9, 10, 10)
        .steps(2)
        .told(9, hook(100, 0))
        .steps(3)
}

/// Hooks on another stay; who was released fires anew with the button pressed anew.
pub fn held_by_several() -> Sequence {
    let (lower, held, higher, another) = (3, 6, 9, 12);
    Sequence::on(&floor())
        .join(lower, 40, 60)
        .join(held, 160, 60)
        .join(higher, 280, 60)
        .join(another, -80, 60)
        .told(lower, hook(120, 0))
        .told(higher, hook(-120, 0))
        .told(another, hook(120, 0))
        .steps(3)
        .leave(held)
        .steps(2)
        .join(held, 160, 60)
        .steps(2)
        .told(lower, nothing())
        .steps(1)
        .told(lower, hook(120, 0))
        .steps(4)
        .leave(lower)
        .steps(2)
}

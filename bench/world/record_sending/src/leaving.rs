//! Who leaves and who comes back under the same id.

use record_calls::Sequence;
use record_calls::inputs::{hook, nothing, walk};
use tile_map::maps::{floor, open};

pub fn leaving_sequences() -> Vec<Sequence> {
    let mut sequences = vec![at_once(), comes_back(), alone_again()];
    for (holder, held) in [(0, 6), (12, 6)] {
        sequences.push(held_leaves(holder, held));
        sequences.push(holder_leaves(holder, held));
    }
    sequences
}

/// With no step since the join there is no copy; the leave is passed along all the same.
fn at_once() -> Sequence {
    Sequence::on(&open())
        .join(3, 40, 40)
        .leave(3)
        .leave(3)
        .join(3, 50, 40)
        .join(8, -40, 40)
        .leave(3)
        .steps(1)
        .join(3, 60, 40)
        .steps(2)
        .leave(8)
        .join(8, -50, 40)
        .leave(8)
        .steps(1)
}

/// In the same place and with the same input, between two steps and later.
fn comes_back() -> Sequence {
    Sequence::on(&floor())
        .join(7, 100, 81)
        .join(1, 200, 81)
        .steps(3)
        .leave(7)
        .join(7, 100, 81)
        .steps(3)
        .leave(7)
        .steps(2)
        .join(7, 100, 81)
        .told(7, walk(1))
        .told(7, nothing())
        .steps(3)
}

/// The hook that held is retracted, which its copy does not know.
fn held_leaves(holder: i32, held: i32) -> Sequence {
    Sequence::on(&floor())
        .join(holder, 40, 60)
        .join(held, 160, 60)
        .told(holder, hook(120, 0))
        .steps(4)
        .leave(held)
        .steps(3)
        .join(held, 100, 60)
        .steps(3)
        .told(holder, nothing())
        .steps(2)
}

fn holder_leaves(holder: i32, held: i32) -> Sequence {
    Sequence::on(&floor())
        .join(holder, 40, 60)
        .join(held, 160, 60)
        .told(holder, hook(120, 0))
        .steps(4)
        .leave(holder)
        .steps(4)
}

/// Nobody is there for some steps, each of which is a mark.
fn alone_again() -> Sequence {
    Sequence::on(&open())
        .steps(2)
        .join(15, 0, 0)
        .steps(2)
        .leave(15)
        .steps(2)
        .join(15, 0, 0)
        .steps(2)
}

//! Who stands on the ground and who does not, from the join to the leave.

use crate::inputs::{hook, jump, nothing};
use crate::sequence::Sequence;
use harness::Call;
use harness::tunings::{HOOK_FIRE_SPEED, HOOK_LENGTH};
use tile_map::maps::{floor, pillars};

pub fn mark_sequences() -> Vec<Sequence> {
    let mut sequences = vec![jumps_off(), refused()];
    // The ground of `pillars` ends at x = 64 and begins again at 192.
    for x in [77, 78, 79, 177, 178, 179] {
        sequences.push(beside_the_edge(x));
    }
    sequences
}

/// And comes back under the same id.
fn jumps_off() -> Sequence {
    Sequence::on(&floor())
        .join(5, 40, 81)
        .steps(2)
        .told(5, jump(1))
        .steps(3)
        .told(5, nothing())
        .steps(2)
        .leave(5)
        .steps(1)
        .join(5, 40, 81)
        .told(5, jump(1))
        .steps(2)
}

/// Both kinds of refused steps leave the mark of who stands and of who does not.
fn refused() -> Sequence {
    let mut sequence = Sequence::on(&floor())
        .join(0, 40, 81)
        .join(9, 90, 20)
        .steps(1)
        .told(0, jump(1))
        .steps(1)
        .told(9, hook(1, 0))
        .tuned(HOOK_LENGTH, i32::MAX)
        .tuned(HOOK_FIRE_SPEED, i32::MAX)
        .steps(1);
    sequence.with_sides((2, 64), Call::Step);
    sequence.told(9, nothing()).steps(1)
}

/// One of the two points below is on the ground, or neither is.
fn beside_the_edge(x: i32) -> Sequence {
    Sequence::on(&pillars()).join(1, x, 81).steps(2)
}

//! Who stands still is sent in its first step and every 150 steps after that; who is told
//! what shows in no record is not sent for it.

use harness::Call;
use libtw2_gamenet::snap_obj::PlayerInput;
use record_calls::Sequence;
use record_calls::inputs::{nothing, walk};
use tile_map::maps::floor;

pub fn standing_sequences() -> Vec<Sequence> {
    vec![stands(), stands_among_others(), told_unseen()]
}

/// One step more than to the second message.
fn stands() -> Sequence {
    Sequence::on(&floor()).join(4, 100, 81).steps(152)
}

/// Steps that are refused do not count; a message for another reason begins the count
/// anew, for that seat alone; who comes later is sent later.
fn stands_among_others() -> Sequence {
    let aim = PlayerInput {
        target_x: 9,
        ..nothing()
    };
    let mut sequence = Sequence::on(&floor())
        .join(0, 40, 81)
        .join(3, 120, 81)
        .steps(30)
        .told(3, aim)
        .steps(20)
        .join(15, 300, 81)
        .steps(60);
    for sides in [(16, 5), (0, 4)] {
        sequence.with_sides(sides, Call::Step);
    }
    sequence.steps(43).told(0, walk(2)).steps(30)
}

/// Other numbers for the same direction and the same aim. They go with the next message.
fn told_unseen() -> Sequence {
    let aim = PlayerInput {
        target_x: 5,
        ..walk(7)
    };
    Sequence::on(&floor())
        .join(2, 60, 81)
        .told(2, walk(1))
        .steps(2)
        .told(2, walk(7))
        .steps(2)
        .told(2, aim)
        .steps(2)
        .told(2, PlayerInput { jump: -3, ..aim })
        .steps(1)
        .told(2, PlayerInput { jump: 1, ..aim })
        .steps(2)
        .told(2, nothing())
        .told(2, aim)
        .steps(2)
}

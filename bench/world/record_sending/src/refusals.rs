//! Calls that are refused: they pass nothing along, and no copy changes.

use harness::tunings::{HOOK_FIRE_SPEED, HOOK_LENGTH, TUNINGS};
use harness::{Call, SEATS};
use record_calls::Sequence;
use record_calls::inputs::{hook, nothing, walk};
use tile_map::maps::room;

const NO_SIDES: (u32, u32) = (8, 7);
const NO_SEATS: [i32; 4] = [-1, SEATS as i32, i32::MIN, i32::MAX];
const NO_TUNINGS: [i32; 4] = [-1, TUNINGS as i32, i32::MIN, i32::MAX];
const FAR: i32 = 100_001;

pub fn refusal_sequences() -> Vec<Sequence> {
    let before = refused(Sequence::on(&room()), 5);
    let start = before
        .join(5, 80, 60)
        .told(5, walk(1))
        .join(9, 170, 60)
        .told(9, hook(-9, 1));
    let among = refused(start, 2).steps(2);
    let after = refused(among, 2).steps(2).leave(5);
    vec![refused(after, 5).steps(1), too_far()]
}

/// Each for every reason; that id is absent.
fn refused(mut sequence: Sequence, absent: i32) -> Sequence {
    let join = |id, x, y| Call::Join { id, x, y };
    sequence.with_sides(NO_SIDES, Call::Step);
    sequence.with_sides(NO_SIDES, join(absent, 80, 60));
    for id in NO_SEATS {
        sequence = sequence.join(id, 80, 60).leave(id).told(id, walk(-1));
    }
    for index in NO_TUNINGS {
        let hundredths = 7;
        sequence.call(Call::Tune { index, hundredths });
    }
    sequence
        .join(absent, FAR, 60)
        .join(absent, 10, 10)
        .leave(absent)
        .told(absent, walk(1))
}

/// A hook that would fly too far refuses the step for all; who is present joins again.
fn too_far() -> Sequence {
    Sequence::on(&room())
        .join(2, 60, 60)
        .join(6, 130, 60)
        .join(2, 60, 60)
        .told(2, walk(1))
        .steps(2)
        .tuned(HOOK_LENGTH, i32::MAX)
        .tuned(HOOK_FIRE_SPEED, i32::MAX)
        .told(6, hook(9, -1))
        .told(2, walk(-1))
        .steps(2)
        .told(6, nothing())
        .steps(2)
}

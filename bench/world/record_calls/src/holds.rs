//! Change request 13, the hold: tuned to its limits and beyond, before somebody is held and
//! meanwhile.

use crate::inputs::{hook, nothing};
use crate::sequence::Sequence;
use harness::tunings::{HOOK_HOLD, ORDINARY, TUNINGS};
use libtw2_gamenet::snap_obj::PlayerInput;
use tile_map::maps::{floor, open};

const HOLDER: i32 = 11;

/// Aims at who is held.
const HOLD: PlayerInput = PlayerInput {
    direction: 0,
    target_x: -10,
    target_y: 0,
    jump: 0,
    hook: 1,
};

/// Steps for which it has been held when the hold is tuned.
const HELD: usize = 5;

const NO_HOLDS: [i32; 6] = [0, 61, 6000, -1, i32::MIN, i32::MAX];

pub fn hold_sequences() -> Vec<Sequence> {
    let mut sequences: Vec<Sequence> = [1, 2, 3, 59, 60].map(from_the_start).into();
    let held = HELD as i32;
    let holds = [1, 2, held - 1, held, held + 1, held + 2, 59, 60];
    sequences.extend(holds.map(tuned_while_held));
    sequences.push(refused());
    sequences.push(there_and_back());
    sequences.push(let_go());
    sequences.push(each_on_the_next());
    sequences.push(longer_at_last());
    sequences
}

/// The first step grabs, so that the hook's tick is the number of steps.
fn about_to_hold() -> Sequence {
    Sequence::on(&floor())
        .join(3, 60, 60)
        .join(HOLDER, 160, 60)
        .told(HOLDER, HOLD)
}

/// Lets go by itself, fires again only after a pause, and holds for as long again.
fn from_the_start(hold: i32) -> Sequence {
    let steps = hold as usize;
    let again = if steps < 10 { steps + 2 } else { 1 };
    let mut start = Sequence::on(&floor()).tuned(HOOK_HOLD, hold);
    for line in about_to_hold().lines {
        start.call(line.call);
    }
    start
        .steps(steps + 3)
        .told(HOLDER, nothing())
        .steps(1)
        .told(HOLDER, HOLD)
        .steps(again)
}

/// Below, at and above the steps for which somebody is held.
fn tuned_while_held(hold: i32) -> Sequence {
    about_to_hold()
        .steps(HELD)
        .tuned(HOOK_HOLD, hold)
        .steps(4)
        .told(HOLDER, nothing())
        .steps(1)
        .told(HOLDER, HOLD)
        .steps(4)
}

/// With every number that is no hold, an index that is none, and a step after each.
fn refused() -> Sequence {
    let mut sequence = about_to_hold();
    for no_hold in NO_HOLDS {
        let no_tuning = [TUNINGS, TUNINGS + 1];
        sequence = sequence.steps(1).tuned(HOOK_HOLD, no_hold);
        sequence = no_tuning
            .into_iter()
            .fold(sequence, |sequence, index| sequence.tuned(index, no_hold));
    }
    sequence
        .tuned(HOOK_HOLD, NO_HOLDS.len() as i32 + 2)
        .steps(1)
        .tuned(HOOK_HOLD, 0)
        .tuned(HOOK_HOLD, 61)
        .steps(3)
}

/// Between two steps: a hold that was left again has taken nothing back.
fn there_and_back() -> Sequence {
    about_to_hold()
        .steps(HELD)
        .tuned(HOOK_HOLD, 1)
        .tuned(HOOK_HOLD, 60)
        .steps(2)
        .tuned(HOOK_HOLD, 2)
        .tuned(HOOK_HOLD, ORDINARY[HOOK_HOLD])
        .steps(2)
}

/// The button is released with a count beyond the hold: it may fire again at once.
fn let_go() -> Sequence {
    about_to_hold()
        .steps(HELD)
        .tuned(HOOK_HOLD, 2)
        .told(HOLDER, nothing())
        .steps(1)
        .told(HOLDER, HOLD)
        .steps(4)
}

/// With counts that differ, and the hold between them.
fn each_on_the_next() -> Sequence {
    Sequence::on(&open())
        .join(1, 0, 0)
        .join(4, 110, 0)
        .join(7, 55, -95)
        .told(1, hook(110, 0))
        .steps(3)
        .told(4, hook(-55, -95))
        .steps(3)
        .told(7, hook(-55, 95))
        .steps(2)
        .tuned(HOOK_HOLD, 4)
        .steps(4)
}

/// One step before the end, and in the step of the end.
fn longer_at_last() -> Sequence {
    about_to_hold()
        .tuned(HOOK_HOLD, 3)
        .steps(2)
        .tuned(HOOK_HOLD, 4)
        .steps(1)
        .tuned(HOOK_HOLD, 6)
        .steps(3)
        .tuned(HOOK_HOLD, 60)
        .steps(1)
        .tuned(HOOK_HOLD, 7)
        .steps(2)
}

//! Tunings with holds of their own, and with what is none.

use crate::case::Case;
use crate::tunings::{Tunings, with};
use harness::SEATS;
use harness::trial::{MOST_STEPS, MOST_TUNINGS};
use harness::tunings::{GRAVITY, HOOK_HOLD, ORDINARY};
use tile_map::maps::floor;

const NO_HOLDS: [i32; 6] = [0, 61, -1, 6000, i32::MIN, i32::MAX];

pub fn hold_cases() -> Vec<Case> {
    let mut cases = vec![of_eight()];
    for no_hold in NO_HOLDS {
        cases.push(running().under(&[held(no_hold)]));
    }
    for no_hold in [0, 61] {
        cases.extend(second(no_hold));
    }
    cases.push(last_of_eight());
    cases
}

fn held(hold: i32) -> Tunings {
    with(&[(HOOK_HOLD, hold)])
}

fn running() -> Case {
    Case::on(&floor(), 30)
        .player([3, 40, 81], [6, 2])
        .player([63, 90, 81], [0, 2])
}

/// Nobody hooks in a trial, so that they differ by the gravity alone.
fn of_eight() -> Case {
    let holds = [1, 60, 2, 59, 30, 1, 60, 17];
    let tunings: [Tunings; MOST_TUNINGS] = std::array::from_fn(|turn| {
        let gravity = [50, 25][turn / 4];
        with(&[(HOOK_HOLD, holds[turn]), (GRAVITY, gravity)])
    });
    running().under(&tunings)
}

/// Alone; before joins that would be refused; after steps, tunings and a map that are.
fn second(no_hold: i32) -> Vec<Case> {
    let case = running().under(&[ORDINARY, held(no_hold)]);
    let no_join = case.clone().player([SEATS as i32, 0, 0], [0, 0]);
    let more = MOST_STEPS + 1;
    let steps = [-1, more].map(|steps| Case {
        steps,
        ..no_join.clone()
    });
    let nine = running().under(&[held(no_hold); MOST_TUNINGS + 1]);
    let no_map = Case {
        sides: (4, 15),
        ..no_join.clone()
    };
    let present = case.clone().player([3, 120, 81], [0, 0]);
    [vec![case, no_join, present, nine, no_map], steps.into()].concat()
}

fn last_of_eight() -> Case {
    let mut tunings = [held(1); MOST_TUNINGS];
    tunings[MOST_TUNINGS - 1] = held(0);
    running().under(&tunings)
}

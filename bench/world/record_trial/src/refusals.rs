//! Trials that are refused, each where later refusals would fit too.

use crate::case::Case;
use crate::tunings::apart;
use harness::SEATS;
use harness::trial::{MOST_STEPS, MOST_TUNINGS};
use harness::tunings::ORDINARY;
use record_calls::maps::corridor;
use tile_map::maps::room;

const NO_SEAT: i32 = SEATS as i32;

/// Clear in the room, inside its wall, and out of reach.
const CLEAR: (i32, i32) = (80, 60);
const IN_WALL: (i32, i32) = (10, 10);
const FAR: (i32, i32) = (100_001, 60);

/// What is wrong with a join: the place, the reach, the seat; the last is of one who is present.
const WRONG: [(i32, (i32, i32)); 6] = [
    (NO_SEAT, FAR),
    (-1, IN_WALL),
    (9, FAR),
    (9, (60, -100_001)),
    (3, IN_WALL),
    (3, CLEAR),
];

pub fn refused_cases() -> Vec<Case> {
    let mut cases = bad_maps();
    cases.extend(bad_counts());
    cases.extend(refused_joins());
    cases.push(last_of_many());
    cases
}

fn good() -> Case {
    Case::on(&room(), 10)
        .player([3, CLEAR.0, CLEAR.1], [6, 6])
        .under(&[ORDINARY])
}

fn joined(case: Case, (id, (x, y)): (i32, (i32, i32))) -> Case {
    case.player([id, x, y], [0, 0])
}

/// With steps and a join that would be refused too.
fn bad_maps() -> Vec<Case> {
    let sides = [(0, 64), (64, 0), (8, 7), (9, 8), (1025, 8), (u32::MAX, 8)];
    let mut cases = Vec::new();
    for sides in sides {
        let case = Case { sides, ..good() };
        cases.push(case.clone());
        let bad = joined(case, WRONG[0]);
        cases.push(Case { steps: -1, ..bad });
    }
    cases
}

/// No tunings or nine, steps outside the limits; with a join that would be refused too, and without.
fn bad_counts() -> Vec<Case> {
    let of_nobody = Case::on(&corridor(), 0);
    let mut cases = vec![of_nobody.clone(), of_nobody.under(&[apart(); 9])];
    for case in [good(), joined(good(), WRONG[4])] {
        for steps in [-1, MOST_STEPS + 1, i32::MIN, i32::MAX] {
            cases.push(Case {
                steps,
                ..case.clone()
            });
        }
        for count in [0, MOST_TUNINGS + 1] {
            let tunings = vec![ORDINARY; count];
            cases.push(Case {
                tunings,
                ..case.clone()
            });
        }
    }
    cases
}

/// Each fault alone and before every other; the first join that is refused decides.
fn refused_joins() -> Vec<Case> {
    let mut cases: Vec<Case> = WRONG.map(|wrong| joined(good(), wrong)).into();
    for wrong in WRONG {
        for other in WRONG {
            cases.push(joined(joined(good(), wrong), other));
        }
    }
    cases
}

/// The sixty-fifth join, when every seat is taken.
fn last_of_many() -> Case {
    let mut case = Case::on(&corridor(), 3).under(&[ORDINARY]);
    for id in 0..=NO_SEAT {
        case = joined(case, (id % NO_SEAT, (40 + 25 * id, 7 * id)));
    }
    case
}

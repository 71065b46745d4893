//! With others, who do as they were told: they hold and are held, push and are in the way.

use crate::sequence::SearchSequence;
use harness::SEATS;
use harness::draw::FIRST_SEATS;
use harness::search::{Buttons, lists};
use harness::tunings::PLAYER_COLLISION;
use libtw2_gamenet::snap_obj::PlayerInput;
use record_calls::Sequence;
use record_calls::inputs::{hook, walk};
use tile_map::maps::{floor, room};

const LAST: i32 = SEATS as i32 - 1;

pub fn sequences() -> Vec<SearchSequence> {
    vec![
        held(),
        holding(),
        pushed(100),
        pushed(0),
        crowd(),
        everybody(),
    ]
}

fn every(count: usize) -> Vec<Vec<Buttons>> {
    lists().into_iter().step_by(count).collect()
}

/// By a lower and a higher id at once.
fn held() -> SearchSequence {
    let start = Sequence::on(&floor())
        .join(0, 40, 60)
        .join(6, 160, 60)
        .join(LAST, 280, 60)
        .told(0, hook(9, 0))
        .told(LAST, hook(-9, 0))
        .steps(4);
    SearchSequence::after(start)
        .to_ends(6, &every(17))
        .all(6, [(160, 60)])
}

/// It lets go in the first step of every list, and whom it held is free.
fn holding() -> SearchSequence {
    let start = Sequence::on(&floor())
        .join(6, 160, 60)
        .join(3, 40, 60)
        .told(
            6,
            PlayerInput {
                direction: 1,
                ..hook(-9, 0)
            },
        )
        .steps(4);
    SearchSequence::after(start)
        .to_ends(6, &every(17))
        .to_ends(3, &every(23))
}

/// Between two who walk to it, with player collision and without.
fn pushed(collision: i32) -> SearchSequence {
    let start = Sequence::on(&floor())
        .tuned(PLAYER_COLLISION, collision)
        .join(8, 100, 81)
        .join(9, 129, 81)
        .join(7, 71, 81)
        .told(9, walk(-1))
        .told(7, walk(1))
        .steps(2);
    SearchSequence::after(start).to_ends(8, &every(19))
}

/// Sixteen in a room, each told something else.
fn crowd() -> SearchSequence {
    let mut start = Sequence::on(&room());
    for id in 0..FIRST_SEATS as i32 {
        start = start.join(id, 60 + 30 * (id % 4), 60 + 10 * (id / 4));
        let input = PlayerInput {
            direction: id % 3 - 1,
            ..hook(id - 8, 5 - id)
        };
        start = start.told(id, input);
    }
    let start = start.steps(3);
    SearchSequence::after(start)
        .to_ends(5, &every(40))
        .to_ends(15, &every(60))
}

/// A player on every seat.
fn everybody() -> SearchSequence {
    let mut start = Sequence::on(&floor());
    for id in 0..=LAST {
        start = start.join(id, 20 + 7 * id, 60 - id % 3 * 30);
    }
    let start = start.told(20, hook(9, 2)).told(LAST, walk(-1)).steps(1);
    SearchSequence::after(start)
        .to_ends(31, &every(90))
        .all(LAST, [(0, 0)])
}

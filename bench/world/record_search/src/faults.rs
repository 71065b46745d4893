//! Searches that are refused, each where later refusals would fit too, and by every role.

use crate::sequence::{Search, SearchSequence};
use harness::SEATS;
use harness::encoding::WORLD_NUMBERS;
use harness::roles::{BOARD, REFEREE};
use harness::search::WAY_NUMBERS;
use record_calls::Sequence;
use tile_map::maps::floor;

/// One who is present and one who is not.
const ONE: i32 = 3;
const ABSENT: i32 = 9;
const NO_SEAT: i32 = SEATS as i32;

const ROLES: [i32; 8] = [BOARD, ONE, ABSENT, NO_SEAT, i32::MAX, -3, i32::MIN, REFEREE];

const NO_SIDES: [(u32, u32); 5] = [(16, 5), (0, 4), (16, 0), (1025, 4), (4, 15)];

const WRONG: [(usize, usize); 8] = [
    (0, WAY_NUMBERS),
    (1, WAY_NUMBERS),
    (WORLD_NUMBERS - 1, WAY_NUMBERS),
    (WORLD_NUMBERS + 1, WAY_NUMBERS),
    (WORLD_NUMBERS, 0),
    (WORLD_NUMBERS, WAY_NUMBERS - 1),
    (WORLD_NUMBERS, WAY_NUMBERS + 1),
    (0, 0),
];

pub fn fault_sequences() -> Vec<SearchSequence> {
    vec![by_roles(), lengths(), maps_and_ids()]
}

fn start() -> SearchSequence {
    SearchSequence::after(Sequence::on(&floor()).join(ONE, 100, 81).steps(1))
}

/// A search that would find a way, and one where everything else is at fault.
fn by_roles() -> SearchSequence {
    let mut sequence = start();
    for role in ROLES {
        let good = Search {
            role,
            ..Search::of(ONE, (102, 81))
        };
        let bad = Search {
            lengths: (0, 0),
            id: NO_SEAT,
            ..good
        };
        sequence = sequence.ask(good).with_sides(NO_SIDES[0], bad);
    }
    sequence
}

fn lengths() -> SearchSequence {
    let mut sequence = start();
    for lengths in WRONG {
        let search = Search {
            lengths,
            ..Search::of(ONE, (102, 81))
        };
        let bad = Search {
            id: NO_SEAT,
            ..search
        };
        sequence = sequence.ask(search).with_sides(NO_SIDES[0], bad);
    }
    sequence
}

fn maps_and_ids() -> SearchSequence {
    let mut sequence = start();
    for id in [ONE, ABSENT, NO_SEAT, -1, i32::MIN, i32::MAX] {
        let search = Search::of(id, (102, 81));
        for sides in NO_SIDES {
            sequence = sequence.with_sides(sides, search);
        }
        sequence = sequence.ask(search);
    }
    sequence
}

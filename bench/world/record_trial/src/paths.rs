//! Trials by hand: who comes how near, and when.

use crate::case::Case;
use crate::tunings::{apart, eight_gravities, running, too_far_from, with};
use harness::SEATS;
use harness::trial::{MOST_STEPS, MOST_TUNINGS};
use harness::tunings::{
    AIR_CONTROL_SPEED, GRAVITY, GROUND_CONTROL_SPEED, ORDINARY, PLAYER_COLLISION,
};
use record_calls::maps::tower;
use tile_map::Map;
use tile_map::maps::{floor, open, pillars, room};

const LAST: i32 = SEATS as i32 - 1;

/// The steps in which something is about to change: none, the first, those in which a jump begins
/// and ends.
const FIRST_STEPS: [i32; 9] = [0, 1, 2, 3, 4, 5, 6, 9, 30];

pub fn path_cases() -> Vec<Case> {
    let mut cases: Vec<Case> = FIRST_STEPS.map(first_steps).into();
    cases.extend([directions(), clamped_targets(), outside_the_map()]);
    cases.extend([1, 60].map(tiny_maps).concat());
    cases.extend([walls(), stuck_beside_a_wall(), long_run(), nobody()]);
    cases.extend([spikes(), spikes_at_the_target(), all_dead()]);
    cases.extend([refused_at_once(), refused_later(), refused_by_one()]);
    cases.extend([eight_tunings(), same_twice(), everybody()]);
    cases
}

/// In its target's column somebody jumps, one column away somebody walks, and somebody falls.
fn first_steps(steps: i32) -> Case {
    Case::on(&floor(), steps)
        .player([7, 48, 81], [1, 0])
        .player([3, 160, 81], [6, 2])
        .player([20, 300, 20], [9, 3])
        .under(&[ORDINARY])
}

/// Left, right and neither, at the first and the last unit of a column, and where a half-way
/// record is in the next one.
fn directions() -> Case {
    let mut case = Case::on(&open_field(), 12);
    let starts = [31, 32, 63, 64, 95, 96, 47, 48];
    for (id, x) in (0..).zip(starts) {
        case = case.player([id, x, 40 * id], [[1, 0, 2][id as usize % 3], id % 4]);
    }
    case.under(&[apart(), with(&[(PLAYER_COLLISION, 0), (GRAVITY, 0)])])
}

fn open_field() -> Map {
    Map::from_rows(&["0000000", "0000000", "0000000", "0000000"])
}

/// Of each side and corner, and at the ends of i32.
fn clamped_targets() -> Case {
    let ends = [-1, 4, 16, i32::MIN, i32::MAX];
    let mut case = Case::on(&floor(), 25);
    for (id, (column, row)) in (0..).zip(ends.into_iter().flat_map(|c| ends.map(|r| (c, r)))) {
        case = case.player([id, 20 + 18 * id, 60], [column, row]);
    }
    case.under(&[apart(), running(25)])
}

/// Its tile is the nearest of the rim.
fn outside_the_map() -> Case {
    Case::on(&open_field(), 40)
        .player([0, -100_000, 100_000], [0, 3])
        .player([1, 100_000, -100_000], [0, 3])
        .player([2, -400, -400], [6, 0])
        .player([LAST, 500, 20], [6, 0])
        .under(&[ORDINARY, running(40)])
}

/// Of one tile everybody is at its target from the start, whatever it is.
fn tiny_maps(steps: i32) -> Vec<Case> {
    let maps: [&[&str]; 5] = [&["0"], &["2"], &["4"], &["02"], &["0", "1"]];
    let on = |rows: &[&str]| {
        Case::on(&Map::from_rows(rows), steps)
            .player([9, 5000, -700], [0, 0])
            .player([8, -30, 16], [-5, 5])
            .under(&[ORDINARY, running(90)])
    };
    maps.map(on).into()
}

/// Through the hole between the pillars, and over it.
fn walls() -> Case {
    Case::on(&pillars(), 150)
        .player([12, 80, 80], [7, 1])
        .player([11, 200, 40], [0, 0])
        .player([2, 16, 60], [4, 3])
        .under(&[ORDINARY, with(&[(GRAVITY, 20)])])
}

/// It jumps again and again, since its x stays.
fn stuck_beside_a_wall() -> Case {
    Case::on(&room(), 90)
        .player([4, 60, 60], [6, 6])
        .player([5, 190, 190], [2, 2])
        .under(&[ORDINARY, with(&[(GRAVITY, 0)]), running(3)])
}

/// As many steps as there may be.
fn long_run() -> Case {
    Case::on(&tower(), MOST_STEPS)
        .player([0, 48, 48], [1, 14])
        .player([LAST, 80, 400], [2, 0])
        .under(&[
            ORDINARY,
            with(&[(GROUND_CONTROL_SPEED, 10), (AIR_CONTROL_SPEED, -500)]),
        ])
}

/// The steps are counted all the same.
fn nobody() -> Case {
    Case::on(&open(), MOST_STEPS).under(&[ORDINARY; MOST_TUNINGS])
}

/// Over deadly tiles, down to them and beside them; one hurries to its death and is nearest then.
fn spikes() -> Case {
    let pit = Map::from_rows(&["0000000000", "0000020000", "0000020000", "1111121112"]);
    Case::on(&pit, 80)
        .player([6, 40, 81], [9, 2])
        .player([7, 130, 60], [5, 2])
        .player([8, 300, 20], [9, 3])
        .player([9, 240, 81], [0, 0])
        .under(&[ORDINARY, running(60), with(&[(GRAVITY, 300)]), apart()])
}

/// The record of the step that removes it is on the target.
fn spikes_at_the_target() -> Case {
    let row = Map::from_rows(&["00000002"]);
    Case::on(&row, 30)
        .player([1, 20, 16], [7, 0])
        .player([30, 150, 16], [7, 0])
        .under(&[
            running(20),
            running(70),
            running(200),
            with(&[(GRAVITY, 0)]),
        ])
}

/// In the first step; there are as many steps as without.
fn all_dead() -> Case {
    Case::on(&Map::from_rows(&["0002"]), 200)
        .player([0, 100, 0], [0, 0])
        .player([1, 900, 0], [3, 0])
        .under(&[ORDINARY])
}

/// The start is all that there is.
fn refused_at_once() -> Case {
    Case::on(&floor(), 20)
        .player([15, 40, 81], [9, 1])
        .player([16, 200, 81], [6, 0])
        .under(&[too_far_from(0), ORDINARY, too_far_from(0)])
}

/// After some steps; what was nearest until then stays.
fn refused_later() -> Case {
    Case::on(&floor(), 60)
        .player([15, 40, 81], [15, 1])
        .player([16, 490, 81], [2, 0])
        .under(&[400, 500, 700, 900, 990, 1100].map(too_far_from))
}

/// The others would have gone on; one is dead by then.
fn refused_by_one() -> Case {
    let map = Map::from_rows(&["00000000000000", "00002000000000", "11111111111111"]);
    Case::on(&map, 60)
        .player([2, 90, 49], [9, 1])
        .player([1, 340, 49], [10, 1])
        .player([40, 200, -3000], [13, 1])
        .under(&[
            too_far_from(2000),
            too_far_from(3000),
            with(&[(GRAVITY, 200)]),
        ])
}

fn eight_tunings() -> Case {
    Case::on(&floor(), 120)
        .player([1, 40, 81], [14, 0])
        .player([0, 450, 60], [1, 1])
        .player([32, 250, 30], [7, 0])
        .under(&eight_gravities())
}

fn same_twice() -> Case {
    Case::on(&room(), 70)
        .player([33, 60, 60], [6, 6])
        .player([34, 100, 60], [1, 1])
        .under(&[ORDINARY, running(5), ORDINARY, running(5)])
}

/// A player on every seat, from the last id to the first.
fn everybody() -> Case {
    let mut case = Case::on(&floor(), 50);
    for id in (0..=LAST).rev() {
        case = case.player([id, 7 * id + 20, 60 - id % 5 * 30], [id % 16, id % 4]);
    }
    case.under(&[ORDINARY, apart(), too_far_from(1200)])
}

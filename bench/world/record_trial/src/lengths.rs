//! Buffers of wrong lengths, with a bad map, steps and joins that would be refused too.

use crate::case::{Case, Lengths};
use harness::trial::ROW_NUMBERS;
use harness::tunings::{ORDINARY, TUNINGS};
use tile_map::maps::floor;

pub fn length_cases() -> Vec<Case> {
    let good = Case::on(&floor(), 5)
        .player([3, 40, 81], [6, 2])
        .player([5, 90, 81], [0, 2])
        .under(&[ORDINARY; 2]);
    let bad = Case {
        sides: (4, 15),
        steps: -1,
        ..good.clone().player([64, 0, 0], [0, 0])
    };
    let cases = [good, bad].map(|case| {
        let right = case.lengths();
        let wrong = wrong_lengths(right).into_iter();
        let lent = |lengths| Case {
            lengths: Some(lengths),
            ..case.clone()
        };
        wrong.map(lent).collect::<Vec<Case>>()
    });
    cases.concat()
}

fn wrong_lengths(right: Lengths) -> Vec<Lengths> {
    let joins = [right.joins - 3, right.joins - 1, right.joins + 1, 0];
    let targets = [right.targets - 2, right.targets - 1, right.targets + 1, 0];
    let tunings = [
        right.tunings - TUNINGS,
        right.tunings - 1,
        right.tunings + 1,
        0,
    ];
    let results = [
        right.result - ROW_NUMBERS,
        right.result - 1,
        right.result + 1,
        0,
    ];
    let mut wrong = Vec::new();
    wrong.extend(joins.map(|joins| Lengths { joins, ..right }));
    wrong.extend(targets.map(|targets| Lengths { targets, ..right }));
    wrong.extend(tunings.map(|tunings| Lengths { tunings, ..right }));
    wrong.extend(results.map(|result| Lengths { result, ..right }));
    wrong
}

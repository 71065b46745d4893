//! Trials: whom each runs for, when it jumps, what counts as nearest, and the refusals.

use super::{NO_SEAT, open, spiked, walled};
use crate::trial::{Nearest, Player, ROW_NUMBERS, Run, Trial, lent_trial};
use crate::tunings::{
    AIR_CONTROL_ACCEL, AIR_CONTROL_SPEED, GRAVITY, GROUND_CONTROL_SPEED, HOOK_HOLD, ORDINARY,
    RAMP_CURVATURE, RAMP_RANGE, RAMP_START, TUNINGS,
};
use crate::{Refusal, SEATS};
use tile_map::Map;

/// The ground begins at y = 64.
fn floor() -> Map {
    Map::from_rows(&["00000000", "00000000", "11111111"])
}

fn player(id: i32, place: (i32, i32), target: (i32, i32)) -> Player {
    Player { id, place, target }
}

fn tuned(changes: &[(usize, i32)]) -> [i32; TUNINGS] {
    let mut tunings = ORDINARY;
    for &(index, hundredths) in changes {
        tunings[index] = hundredths;
    }
    tunings
}

fn of_one(map: &Map, player: Player, tunings: [i32; TUNINGS], steps: i32) -> (i32, Nearest) {
    let trial = Trial {
        players: vec![player],
        tunings: vec![tunings],
        steps,
    };
    let runs = trial.told(map).expect("a trial");
    let [Run { steps, nearest }] = &runs[..] else {
        panic!("one run");
    };
    let others = nearest.iter().flatten().count();
    assert_eq!(others, 1);
    (*steps, nearest[player.id as usize].expect("joined"))
}

fn nearest(distance: i32, step: i32) -> Nearest {
    Nearest { distance, step }
}

/// The start is step 0, and nothing that is as near counts later.
#[test]
fn the_start_counts() {
    let here = player(5, (48, 49), (1, 1));
    assert_eq!(of_one(&floor(), here, ORDINARY, 0), (0, nearest(0, 0)));
    assert_eq!(of_one(&floor(), here, ORDINARY, 40), (40, nearest(0, 0)));
    let far = player(5, (48, 49), (7, 0));
    assert_eq!(of_one(&floor(), far, ORDINARY, 0), (0, nearest(7, 0)));
}

/// At 10 units a step a tile is 3 steps and a bit; columns and rows are added.
#[test]
fn columns_and_rows() {
    let to_the_right = player(0, (48, 49), (6, 0));
    let (steps, told) = of_one(&floor(), to_the_right, ORDINARY, 300);
    assert_eq!((steps, told.distance), (300, 0));
    let (_, early) = of_one(&floor(), to_the_right, ORDINARY, told.step - 1);
    assert!(early.distance > 0 && early.step < told.step);
    let to_the_left = player(0, (240, 49), (0, 1));
    let (_, left) = of_one(&floor(), to_the_left, ORDINARY, 300);
    assert_eq!(left.distance, 0);
}

/// Targets outside the map are those at its rim.
#[test]
fn targets_are_clamped() {
    for (inside, outside) in [((7, 0), (8, -1)), ((0, 2), (i32::MIN, i32::MAX))] {
        let [a, b] = [inside, outside].map(|target| {
            let one = player(3, (130, 49), target);
            of_one(&floor(), one, ORDINARY, 100)
        });
        assert_eq!(a, b);
    }
}

/// In the column of its target it stands in step 1, jumps in step 2, and lets go where its x has
/// changed; without gravity it stays in the air.
#[test]
fn who_stays_jumps() {
    let up = player(1, (48, 49), (1, 0));
    let (_, told) = of_one(&floor(), up, tuned(&[(GRAVITY, 0)]), 20);
    // 13.2 units in step 2, and the row above ends at 31.
    assert_eq!(told, nearest(0, 3));
    // The walk is so slow that no record's x changes.
    let slow = tuned(&[(GROUND_CONTROL_SPEED, 10), (AIR_CONTROL_ACCEL, 0)]);
    let (_, told) = of_one(&floor(), player(1, (48, 49), (2, 0)), slow, 5);
    assert_eq!(told.distance, 1);
}

/// Its last record counts, and the steps go on.
#[test]
fn who_dies_keeps_what_it_had() {
    let one = player(9, (40, 20), (2, 0));
    let (steps, told) = of_one(&spiked(), one, ORDINARY, 60);
    // It dies as its right corner is on the third column, so it never is there itself.
    assert_eq!((steps, told), (60, nearest(1, 0)));
    let fast = tuned(&[(AIR_CONTROL_SPEED, 4000), (AIR_CONTROL_ACCEL, 4000)]);
    let (steps, told) = of_one(&spiked(), one, fast, 60);
    assert_eq!((steps, told), (60, nearest(0, 1)));
}

/// A refused step is not counted, and what came before it stays.
#[test]
fn a_refusal_ends_the_run() {
    let one = player(2, (48, 20), (0, 0));
    let far = tuned(&[(RAMP_START, 0), (RAMP_RANGE, 1), (RAMP_CURVATURE, 1)]);
    assert_eq!(of_one(&open(), one, far, 60), (0, nearest(1, 0)));
    // It runs for a few steps first.
    let later = tuned(&[(RAMP_START, 40_000), (RAMP_RANGE, 1), (RAMP_CURVATURE, 1)]);
    let running = player(2, (56, 49), (7, 1));
    assert_eq!(of_one(&floor(), running, later, 60), (3, nearest(5, 3)));
    let trial = Trial {
        players: vec![one],
        tunings: vec![far, ORDINARY, far, ORDINARY],
        steps: 60,
    };
    let runs = trial.told(&open()).expect("a trial");
    let steps: Vec<i32> = runs.iter().map(|run| run.steps).collect();
    assert_eq!(steps, [0, 60, 0, 60]);
    assert_eq!(runs[1], runs[3]);
}

#[test]
fn refusals_in_their_order() {
    let good = Trial {
        players: vec![player(3, (48, 48), (0, 0))],
        tunings: vec![ORDINARY],
        steps: 3000,
    };
    let bad_map = Map { width: 2, ..open() };
    assert!(good.told(&walled()).is_ok());
    let steps = |steps| Trial {
        steps,
        ..good.clone()
    };
    let tunings = |count| Trial {
        tunings: vec![ORDINARY; count],
        ..good.clone()
    };
    for trial in [
        steps(-1),
        steps(3001),
        steps(i32::MIN),
        tunings(0),
        tunings(9),
    ] {
        assert_eq!(trial.told(&walled()), Err(Refusal::Trial));
        assert_eq!(trial.told(&bad_map), Err(Refusal::Map));
        let players = vec![player(NO_SEAT, (0, 0), (0, 0))];
        let both = Trial { players, ..trial };
        assert_eq!(both.told(&walled()), Err(Refusal::Trial));
    }
    assert!(tunings(8).told(&walled()).is_ok());
    let joined = |others: &[(i32, i32)]| {
        let others = others.iter().map(|&(id, x)| player(id, (x, 48), (0, 0)));
        let mut trial = good.clone();
        trial.players.extend(others);
        trial.told(&walled()).err()
    };
    assert_eq!(joined(&[]), None);
    assert_eq!(joined(&[(4, 80), (NO_SEAT, 48)]), Some(Refusal::NotClear));
    assert_eq!(joined(&[(NO_SEAT, 48), (4, 80)]), Some(Refusal::Id));
    assert_eq!(joined(&[(4, 100_001), (3, 48)]), Some(Refusal::Place));
    assert_eq!(
        joined(&[(5, 48), (3, 48), (-1, 48)]),
        Some(Refusal::Present)
    );
}

/// After the counts and before the joins, whichever tuning has it; else it changes nothing, since
/// nobody hooks.
#[test]
fn holds_of_tunings() {
    let held = |holds: &[i32]| Trial {
        players: vec![player(3, (48, 49), (2, 1))],
        tunings: holds
            .iter()
            .map(|&hold| tuned(&[(HOOK_HOLD, hold)]))
            .collect(),
        steps: 20,
    };
    let runs = held(&[1, 59, 60]).told(&walled()).expect("a trial");
    assert!(runs.iter().all(|run| *run == runs[0]));
    for bad in [0, 61, -1, 6000, i32::MIN, i32::MAX] {
        let trial = held(&[60, bad, 1]);
        assert_eq!(trial.told(&walled()), Err(Refusal::Hold));
        let mut refused_join = trial.clone();
        refused_join
            .players
            .insert(0, player(NO_SEAT, (0, 0), (0, 0)));
        assert_eq!(refused_join.told(&walled()), Err(Refusal::Hold));
        let steps = -1;
        let bad_steps = Trial { steps, ..trial };
        assert_eq!(bad_steps.told(&walled()), Err(Refusal::Trial));
    }
}

/// The second player's numbers stand behind those of the seats below it.
#[test]
fn numbers_and_lengths() {
    let (joins, targets) = ([63, 48, 49, 0, 80, 49], [1, 0, 2, 1]);
    let tunings = [ORDINARY, ORDINARY].concat();
    let lent = |joins: &[i32], targets: &[i32], tunings: &[i32], room| {
        lent_trial(&floor(), joins, targets, tunings, 0, room)
    };
    let rows = lent(&joins, &targets, &tunings, 2 * ROW_NUMBERS).expect("a trial");
    let mut row = [0; ROW_NUMBERS];
    row[1..4].copy_from_slice(&[1, 0, 0]);
    row[1 + 3 * (SEATS - 1)..].copy_from_slice(&[1, 1, 0]);
    assert_eq!(rows, [row, row].concat());
    let nobody = lent(&[], &[], &ORDINARY, ROW_NUMBERS);
    assert_eq!(nobody, Ok(vec![0; ROW_NUMBERS]));
    let room = 2 * ROW_NUMBERS;
    for wrong in [
        lent(&joins[..5], &targets, &tunings, room),
        lent(&joins[..3], &targets, &tunings, room),
        lent(&joins, &targets[..3], &tunings, room),
        lent(&joins, &targets[..2], &tunings, room),
        lent(&joins, &targets, &tunings[1..], room),
        lent(&joins, &targets, &tunings, room - 1),
        lent(&joins, &targets, &tunings, room + ROW_NUMBERS),
        lent(&joins, &targets, &[], ROW_NUMBERS),
        lent_trial(
            &Map {
                width: 1,
                ..floor()
            },
            &joins,
            &targets,
            &tunings,
            -1,
            0,
        ),
    ] {
        assert_eq!(wrong, Err(Refusal::Length));
    }
    assert_eq!(lent(&joins, &targets, &[], 0), Err(Refusal::Trial));
}

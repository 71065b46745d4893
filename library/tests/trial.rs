//! Trials: what is told for each tuning, the refusals and their order.

use ponguriena::buffers::TUNINGS;
use ponguriena::trial::{self, MOST_STEPS, MOST_TUNINGS, ROW_NUMBERS, game_tunings};
use ponguriena::{CharacterId, Map, Nearest, Refusal, Run, SEATS, Trial, Tuning};

/// The ground begins at y = 64.
const FLOOR: Map = Map {
    width: 8,
    height: 3,
    tiles: &[
        0, 0, 0, 0, 0, 0, 0, 0, //
        0, 0, 0, 0, 0, 0, 0, 0, //
        1, 1, 1, 1, 1, 1, 1, 1,
    ],
};

/// Its sides are not those of its tiles.
const NO_MAP: Map = Map { width: 7, ..FLOOR };

/// Its last tile is deadly.
const SPIKED: Map = Map {
    width: 4,
    height: 1,
    tiles: &[0, 0, 0, 2],
};

/// Nobody writes this.
const UNWRITTEN: i32 = -77;

const GROUND_CONTROL_SPEED: usize = Tuning::GroundControlSpeed as usize;
const AIR_CONTROL_SPEED: usize = Tuning::AirControlSpeed as usize;
const AIR_CONTROL_ACCEL: usize = Tuning::AirControlAccel as usize;
const GRAVITY: usize = Tuning::Gravity as usize;
const RAMP_START: usize = Tuning::VelrampStart as usize;
const RAMP_RANGE: usize = Tuning::VelrampRange as usize;
const RAMP_CURVATURE: usize = Tuning::VelrampCurvature as usize;

fn with(changes: &[(usize, i32)]) -> [i32; TUNINGS] {
    let mut tunings = game_tunings();
    for &(index, hundredths) in changes {
        tunings[index] = hundredths;
    }
    tunings
}

fn one(id: u32, place: (i32, i32), target: (i32, i32)) -> Trial {
    Trial::new().player(CharacterId(id), place, target)
}

/// Under one tuning with one player.
fn nearest(trial: Trial, tunings: [i32; TUNINGS], map: &Map, steps: i32) -> [i32; 3] {
    let runs = trial.tuning(tunings).run(map, steps).expect("a trial");
    let [Run { steps, nearest }] = &runs[..] else {
        panic!("one run");
    };
    let [Nearest { distance, step, .. }] = nearest[..] else {
        panic!("one player");
    };
    [*steps, distance, step]
}

/// The start is step 0; the first step that is as near stays.
#[test]
fn the_start_and_the_first_step_that_reached_it() {
    let here = || one(5, (48, 49), (1, 1));
    assert_eq!(nearest(here(), game_tunings(), &FLOOR, 0), [0, 0, 0]);
    assert_eq!(nearest(here(), game_tunings(), &FLOOR, 50), [50, 0, 0]);
    let beside = || one(5, (48, 49), (3, 1));
    assert_eq!(nearest(beside(), game_tunings(), &FLOOR, 0), [0, 2, 0]);
    assert_eq!(nearest(beside(), game_tunings(), &FLOOR, 50), [50, 0, 7]);
    assert_eq!(nearest(beside(), game_tunings(), &FLOOR, 6), [6, 1, 4]);
}

/// It stands in step 1 and jumps in step 2, since its x stayed.
#[test]
fn who_stays_jumps() {
    let above = || one(5, (48, 49), (1, 0));
    let light = with(&[(GRAVITY, 0)]);
    assert_eq!(nearest(above(), light, &FLOOR, 2), [2, 1, 0]);
    assert_eq!(nearest(above(), light, &FLOOR, 3), [3, 0, 3]);
}

#[test]
fn a_target_outside_is_that_at_the_rim() {
    for (inside, outside) in [((7, 0), (8, -1)), ((0, 2), (i32::MIN, i32::MAX))] {
        let [a, b] = [inside, outside]
            .map(|target| nearest(one(63, (130, 49), target), game_tunings(), &FLOOR, 100));
        assert_eq!(a, b);
    }
}

/// The record of the step that removes it counts, and the steps go on.
#[test]
fn who_dies_keeps_what_it_had() {
    let dying = || one(9, (20, 16), (3, 0));
    let slow = [with(&[(GRAVITY, 0)]), game_tunings()];
    for tunings in slow {
        let [steps, distance, _] = nearest(dying(), tunings, &SPIKED, 60);
        assert_eq!((steps, distance), (60, 1));
    }
    let fast = with(&[(AIR_CONTROL_SPEED, 9000), (AIR_CONTROL_ACCEL, 9000)]);
    assert_eq!(nearest(dying(), fast, &SPIKED, 60), [60, 0, 2]);
}

/// Under the other tuning the run goes on.
#[test]
fn a_step_too_far_ends_a_run() -> Result<(), Refusal> {
    let ramp = [(RAMP_RANGE, 1), (RAMP_CURVATURE, 1)];
    let far = with(&[ramp[0], ramp[1], (RAMP_START, 0)]);
    let later = with(&[ramp[0], ramp[1], (RAMP_START, 40_000)]);
    let trial = one(2, (56, 49), (7, 1))
        .tuning(far)
        .tuning(later)
        .tuning(game_tunings())
        .tuning(later);
    let runs = trial.run(&FLOOR, 60)?;
    let told = |run: &Run| (run.steps, run.nearest[0].distance, run.nearest[0].step);
    assert_eq!(told(&runs[0]), (0, 6, 0));
    assert_eq!(told(&runs[1]), (3, 5, 3));
    assert_eq!(runs[2].steps, 60);
    assert_eq!(runs[3], runs[1]);
    Ok(())
}

#[test]
fn everybody_by_rising_id() -> Result<(), Refusal> {
    let mut trial = Trial::new().tuning(game_tunings());
    for (id, column) in CharacterId::all().rev().zip((0..SEATS as i32).rev()) {
        trial = trial.player(id, (40 * column, 20), (column, 0));
    }
    let runs = trial.run(&FLOOR, 3)?;
    let ids = runs[0].nearest.iter().map(|nearest| nearest.id);
    assert!(ids.eq(CharacterId::all()));
    let nobody = Trial::new().tuning(game_tunings());
    let run = Run {
        steps: MOST_STEPS,
        nearest: Vec::new(),
    };
    assert_eq!(nobody.run(&FLOOR, MOST_STEPS), Ok(vec![run]));
    Ok(())
}

/// The map first, then tunings and steps, then the joins in their order.
#[test]
fn refusals_in_their_order() {
    let good = || one(3, (48, 48), (0, 0)).tuning(game_tunings());
    let tunings = |count| (0..count).fold(Trial::new(), |trial, _| trial.tuning(game_tunings()));
    for steps in [-1, MOST_STEPS + 1, i32::MIN, i32::MAX] {
        let bad = good().player(CharacterId(64), (0, 0), (0, 0));
        assert_eq!(bad.run(&FLOOR, steps), Err(Refusal::BadTrial));
        assert_eq!(bad.run(&NO_MAP, steps), Err(Refusal::BadMap));
    }
    assert_eq!(tunings(0).run(&FLOOR, 0), Err(Refusal::BadTrial));
    assert!(tunings(MOST_TUNINGS).run(&FLOOR, 0).is_ok());
    assert_eq!(
        tunings(MOST_TUNINGS + 1).run(&FLOOR, 0),
        Err(Refusal::BadTrial)
    );
    let wrong = [
        (64, (40, 40), Refusal::BadId),
        (u32::MAX, (40, 40), Refusal::BadId),
        (4, (100_001, 40), Refusal::OutOfReach),
        (4, (40, 80), Refusal::NotClear),
        (3, (40, 40), Refusal::Present),
    ]
    .map(|(id, place, refusal)| (CharacterId(id), place, refusal));
    for (id, place, refusal) in wrong {
        for (other, elsewhere, _) in wrong {
            let bad = good()
                .player(id, place, (0, 0))
                .player(other, elsewhere, (0, 0));
            assert_eq!(bad.run(&FLOOR, 1), Err(refusal));
        }
    }
}

/// What is refused writes nothing.
#[test]
fn lengths_come_first() {
    let (joins, targets) = ([3, 48, 48, 4, 20, 20], [1, 0, 2, 1]);
    let tunings = [game_tunings(); 2].concat();
    let room = 2 * ROW_NUMBERS;
    let answer = |joins: &[i32], targets: &[i32], tunings: &[i32], room: usize| {
        let mut result = vec![UNWRITTEN; room];
        let answer = trial::run(&NO_MAP, joins, targets, tunings, -1, &mut result);
        assert!(result.iter().all(|&number| number == UNWRITTEN));
        answer
    };
    let bad = Err(Refusal::BadLength);
    for length in [0, 1, 3, 5] {
        assert_eq!(answer(&joins[..length], &targets, &tunings, room), bad);
    }
    for length in [0, 1, 2, 3] {
        assert_eq!(answer(&joins, &targets[..length], &tunings, room), bad);
    }
    for length in [0, 1, TUNINGS, 2 * TUNINGS - 1] {
        assert_eq!(answer(&joins, &targets, &tunings[..length], room), bad);
    }
    for room in [0, 1, ROW_NUMBERS, room - 1, room + 1] {
        assert_eq!(answer(&joins, &targets, &tunings, room), bad);
    }
    assert_eq!(
        answer(&joins, &targets, &tunings, room),
        Err(Refusal::BadMap)
    );
    assert_eq!(answer(&[], &[], &[], 0), Err(Refusal::BadMap));
}

#[test]
fn numbers_of_a_row() -> Result<(), Refusal> {
    let mut result = vec![UNWRITTEN; ROW_NUMBERS];
    let slow = with(&[(GROUND_CONTROL_SPEED, 0)]);
    trial::run(&FLOOR, &[62, 48, 49], &[4, 1], &slow, 4, &mut result)?;
    let mut row = [0; ROW_NUMBERS];
    row[0] = 4;
    row[1 + 3 * 62..][..3].copy_from_slice(&[1, 3, 0]);
    assert_eq!(result, row);
    Ok(())
}

//! A trial as the numbers of the port's C interface: for each player its id, x and y, and its
//! target's column and row; for each tuning its settings, and a row of what is told.

use super::{Nearest, Player, Run, Trial};
use crate::refusal::Refusal;
use crate::slot::SEATS;
use crate::tunings::TUNINGS;
use tile_map::Map;

pub const JOIN_NUMBERS: usize = 3;
pub const TARGET_NUMBERS: usize = 2;

/// For each seat whether somebody joined there, its smallest distance and the step.
const NEAREST_NUMBERS: usize = 3;

/// The steps that were done, then the seats.
pub const ROW_NUMBERS: usize = 1 + SEATS * NEAREST_NUMBERS;

/// The rows, where so many numbers are lent for them. The lengths are asked for before all else.
pub fn lent_trial(
    map: &Map,
    joins: &[i32],
    targets: &[i32],
    tunings: &[i32],
    steps: i32,
    room: usize,
) -> Result<Vec<i32>, Refusal> {
    let (joins, rest) = joins.as_chunks::<JOIN_NUMBERS>();
    let (targets, other_rest) = targets.as_chunks::<TARGET_NUMBERS>();
    let (tunings, last_rest) = tunings.as_chunks::<TUNINGS>();
    let whole = rest.is_empty() && other_rest.is_empty() && last_rest.is_empty();
    let fits = joins.len() == targets.len() && room == tunings.len() * ROW_NUMBERS;
    Refusal::Length.when(!whole || !fits)?;
    let players = joins.iter().zip(targets);
    let trial = Trial {
        players: players
            .map(|(&join, &target)| player(join, target))
            .collect(),
        tunings: tunings.to_vec(),
        steps,
    };
    Ok(trial.told(map)?.iter().flat_map(row).collect())
}

fn player([id, x, y]: [i32; JOIN_NUMBERS], [column, row]: [i32; TARGET_NUMBERS]) -> Player {
    Player {
        id,
        place: (x, y),
        target: (column, row),
    }
}

fn row(run: &Run) -> Vec<i32> {
    let seat = |nearest: &Option<Nearest>| match *nearest {
        Some(Nearest { distance, step }) => [1, distance, step],
        None => [0; NEAREST_NUMBERS],
    };
    let mut numbers = vec![run.steps];
    numbers.extend(run.nearest.iter().flat_map(seat));
    numbers
}

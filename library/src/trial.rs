//! Trial players for a tuning: how near does each come to a tile of its own?
//!
//! For each tuning the same players join a fresh world and run. Before each step a player's
//! direction is where its target's column is, seen from its own; it jumps where its record's x
//! stayed the same in the step before, and not in step 1. It neither hooks nor aims. A distance is
//! columns plus rows between a record's tile and the target. [`Trial`] keeps who joins and which
//! tunings are tried; [`run`] is lent both as numbers, and a refused one writes nothing.

use crate::buffers::TUNINGS;
use crate::character_id::CharacterId;
use crate::ffi;
use crate::map::Map;
use crate::refusal::Refusal;
use crate::world::World;
use alloc::vec;
use alloc::vec::Vec;

/// The most tunings of a trial; there must be one or more.
pub const MOST_TUNINGS: usize = ffi::TRIAL_TUNINGS;

/// The most steps of a trial.
pub const MOST_STEPS: i32 = ffi::TRIAL_STEPS;

/// A player's id, x and y.
pub const JOIN_NUMBERS: usize = ffi::TRIAL_JOIN;

/// A target's column and row.
pub const TARGET_NUMBERS: usize = ffi::TRIAL_TARGET;

/// Whether somebody joined, its smallest distance and the first step that reached it.
pub const NEAREST_NUMBERS: usize = ffi::TRIAL_NEAREST;

/// What is told for a tuning: the steps that were done, then what is told for each seat.
pub const ROW_NUMBERS: usize = ffi::TRIAL_ROW;

/// Writes a row of [`ROW_NUMBERS`] for each tuning. There are [`TARGET_NUMBERS`] targets for each
/// join of [`JOIN_NUMBERS`], and a tuning is [`TUNINGS`] numbers.
///
/// # Errors
///
/// [`Refusal::BadLength`], then [`Refusal::BadMap`], then [`Refusal::BadTrial`], then
/// [`Refusal::BadHold`] where any of the holds is outside its limits; then what the first join is
/// refused with that is.
#[inline]
pub fn run(
    map: &Map<'_>,
    joins: &[i32],
    targets: &[i32],
    tunings: &[i32],
    steps: i32,
    result: &mut [i32],
) -> Result<(), Refusal> {
    // SAFETY: each pointer and the length after it are those of one slice, and the one that is
    // written is lent for writing, so it overlaps no other.
    Refusal::of_answer(unsafe {
        ffi::ponguriena_trial(
            map.width,
            map.height,
            map.tiles.as_ptr(),
            map.tiles.len(),
            joins.as_ptr(),
            joins.len(),
            targets.as_ptr(),
            targets.len(),
            tunings.as_ptr(),
            tunings.len(),
            steps,
            result.as_mut_ptr(),
            result.len(),
        )
    })
}

/// Who joins, for which tile each runs, and the tunings that are tried.
///
/// ```
/// use ponguriena::trial::game_tunings;
/// use ponguriena::{CharacterId, Map, Refusal, Trial, Tuning};
///
/// let map = Map { width: 4, height: 2, tiles: &[0, 0, 0, 0, 1, 1, 1, 1] };
/// let mut slow = game_tunings();
/// slow[Tuning::GroundControlSpeed as usize] = 200;
/// let trial = Trial::new()
///     .player(CharacterId(7), (20, 17), (3, 0))
///     .tuning(game_tunings())
///     .tuning(slow);
/// let runs = trial.run(&map, 30)?;
/// let [game, slow] = [0, 1].map(|tuning| runs[tuning].nearest[0]);
/// assert_eq!((game.id, game.distance, game.step), (CharacterId(7), 0, 10));
/// assert_eq!((slow.id, slow.distance, slow.step), (CharacterId(7), 1, 22));
/// assert_eq!(trial.run(&map, 3001), Err(Refusal::BadTrial));
/// # Ok::<(), Refusal>(())
/// ```
///
/// A trial makes up to 24,000 steps, about 90 s at the slowest step found: it belongs on
/// another thread than the one that steps a world. It can be taken in pieces, since a tuning has
/// the same [`Run`] whatever others are tried with it:
///
/// ```
/// # use ponguriena::trial::game_tunings;
/// # use ponguriena::{CharacterId, Map, Refusal, Trial, Tuning};
/// # let map = Map { width: 4, height: 2, tiles: &[0, 0, 0, 0, 1, 1, 1, 1] };
/// # let mut slow = game_tunings();
/// # slow[Tuning::GroundControlSpeed as usize] = 200;
/// let players = Trial::new().player(CharacterId(7), (20, 17), (3, 0));
/// let whole = players.clone().tuning(game_tunings()).tuning(slow).run(&map, 30)?;
/// let [game, slow] = [game_tunings(), slow].map(|tuning| players.clone().tuning(tuning));
/// assert_eq!(whole, [game.run(&map, 30)?, slow.run(&map, 30)?].concat());
/// # Ok::<(), Refusal>(())
/// ```
#[derive(Clone, Debug, Default, Eq, PartialEq)]
pub struct Trial {
    joins: Vec<i32>,
    targets: Vec<i32>,
    tunings: Vec<i32>,
}

/// What a trial tells for one tuning.
#[derive(Clone, Debug, Eq, PartialEq)]
pub struct Run {
    /// How many were done: a step that is refused as [`Refusal::TooFar`] ends the run.
    pub steps: i32,
    /// Of everybody who joined, by rising id.
    pub nearest: Vec<Nearest>,
}

/// How near a player came.
#[derive(Clone, Copy, Debug, Eq, Hash, PartialEq)]
pub struct Nearest {
    /// Whose.
    pub id: CharacterId,
    /// The smallest, in tiles.
    pub distance: i32,
    /// The first step that reached it; 0 is the place of the join. Who is removed by a deadly
    /// tile keeps what it had, its last record included.
    pub step: i32,
}

impl Trial {
    /// With nobody, under no tuning.
    pub fn new() -> Trial {
        Trial::default()
    }

    /// After those before it somebody joins at a place (x, y), and runs for a tile (column, row).
    /// One outside the map is that at its rim.
    pub fn player(mut self, id: CharacterId, place: (i32, i32), target: (i32, i32)) -> Trial {
        self.joins.extend([id.number(), place.0, place.1]);
        self.targets.extend([target.0, target.1]);
        self
    }

    /// One more tuning is tried: each setting by its index, that of a [`Tuning`](crate::Tuning).
    pub fn tuning(mut self, settings: [i32; TUNINGS]) -> Trial {
        self.tunings.extend(settings);
        self
    }

    /// A run of so many steps for each tuning. Refused: a map at fault, then
    /// [`Refusal::BadTrial`], then [`Refusal::BadHold`], then the first join that [`World::join`]
    /// would refuse.
    pub fn run(&self, map: &Map<'_>, steps: i32) -> Result<Vec<Run>, Refusal> {
        // Nine tunings are refused as any larger number of them is, so no more are lent.
        let tried = (self.tunings.len() / TUNINGS).min(MOST_TUNINGS + 1);
        let mut result = vec![0; tried * ROW_NUMBERS];
        let (joins, targets) = (&self.joins, &self.targets);
        let tunings = &self.tunings[..tried * TUNINGS];
        run(map, joins, targets, tunings, steps, &mut result)?;
        Ok(result.chunks_exact(ROW_NUMBERS).map(Run::of_row).collect())
    }
}

impl Run {
    fn of_row(row: &[i32]) -> Run {
        let seats = CharacterId::all().zip(row[1..].chunks_exact(NEAREST_NUMBERS));
        let joined = seats.filter(|(_, numbers)| numbers[0] != 0);
        let nearest = joined.map(|(id, numbers)| Nearest {
            id,
            distance: numbers[1],
            step: numbers[2],
        });
        Run {
            steps: row[0],
            nearest: nearest.collect(),
        }
    }
}

/// Those of a fresh world, to be changed for a trial.
pub fn game_tunings() -> [i32; TUNINGS] {
    let mut tunings = [0; TUNINGS];
    tunings.copy_from_slice(&World::fresh().numbers()[..TUNINGS]);
    tunings
}

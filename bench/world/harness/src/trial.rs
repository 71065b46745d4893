//! Change request 11, 'trial players for a tuning': each runs for a tile of its own, and what is
//! told for each tuning is how near it came.

mod lent;

pub use lent::{JOIN_NUMBERS, ROW_NUMBERS, TARGET_NUMBERS, lent_trial};

use crate::call::Call;
use crate::published::Published;
use crate::refusal::Refusal;
use crate::slot::SEATS;
use crate::tunings::{HOOK_HOLD, TUNINGS, check_tuning};
use crate::world::{World, check_map};
use libtw2_gamenet::snap_obj::{CharacterCore, PlayerInput};
use original::{State, vec2};
use tile_map::Map;

pub const MOST_TUNINGS: usize = 8;
pub const MOST_STEPS: i32 = 3000;

/// Who joins where, and for which tile it runs.
#[derive(Clone, Copy)]
pub struct Player {
    pub id: i32,
    pub place: (i32, i32),
    /// Column and row, which may be outside the map.
    pub target: (i32, i32),
}

#[derive(Clone)]
pub struct Trial {
    /// In the order in which they join.
    pub players: Vec<Player>,
    pub tunings: Vec<[i32; TUNINGS]>,
    pub steps: i32,
}

/// What is told for one tuning.
#[derive(Clone, Debug, Eq, PartialEq)]
pub struct Run {
    /// How many were done.
    pub steps: i32,
    /// By rising id; none where nobody joined.
    pub nearest: [Option<Nearest>; SEATS],
}

/// The smallest distance to the target, and the first step that reached it.
#[derive(Clone, Copy, Debug, Eq, PartialEq)]
pub struct Nearest {
    pub distance: i32,
    pub step: i32,
}

/// A run that goes on.
pub struct Running {
    world: World,
    players: Vec<Progress>,
    steps: i32,
}

/// How far one of them is.
struct Progress {
    id: i32,
    target: (i32, i32),
    /// Of its last record, or of the join.
    x: i32,
    /// Whether that x was the same a step before.
    stayed: bool,
    nearest: Nearest,
}

impl Trial {
    /// A run for each tuning.
    pub fn told(&self, map: &Map) -> Result<Vec<Run>, Refusal> {
        let runs = self.begun(map)?.into_iter();
        Ok(runs.map(|run| run.ended(map, self.steps)).collect())
    }

    /// As they are before step 1.
    pub fn begun(&self, map: &Map) -> Result<Vec<Running>, Refusal> {
        check_map(map)?;
        let counts = 1..=MOST_TUNINGS;
        Refusal::Trial.when(!counts.contains(&self.tunings.len()))?;
        Refusal::Trial.when(!(0..=MOST_STEPS).contains(&self.steps))?;
        for tunings in &self.tunings {
            check_tuning(HOOK_HOLD, tunings[HOOK_HOLD])?;
        }
        let mut world = World::fresh();
        for &Player { id, place, .. } in &self.players {
            world.join(map, id, place.0, place.1)?;
        }
        let begun = self.tunings.iter().map(|&tunings| Running {
            world: World {
                tunings,
                ..world.clone()
            },
            players: self
                .players
                .iter()
                .map(|one| Progress::begun(one, map))
                .collect(),
            steps: 0,
        });
        Ok(begun.collect())
    }
}

impl Running {
    fn ended(mut self, map: &Map, steps: i32) -> Run {
        while self.steps < steps && self.step(map).is_ok() {}
        let mut nearest = [None; SEATS];
        for one in &self.players {
            nearest[one.id as usize] = Some(one.nearest);
        }
        let steps = self.steps;
        Run { steps, nearest }
    }

    /// One that is refused is not counted.
    pub fn step(&mut self, map: &Map) -> Result<(), Refusal> {
        for one in &self.players {
            if let Some(input) = one.input(&self.world, map) {
                self.world.input(one.id, input)?;
            }
        }
        let published = self.world.step(map)?;
        self.steps += 1;
        for one in &mut self.players {
            one.take(&published, self.steps, map);
        }
        Ok(())
    }

    /// What those want in the next step who are still there.
    pub fn inputs(&self, map: &Map) -> Vec<Call> {
        let call = |one: &Progress| {
            let input = one.input(&self.world, map)?;
            Some(Call::Input { id: one.id, input })
        };
        self.players.iter().filter_map(call).collect()
    }
}

impl Progress {
    fn begun(player: &Player, map: &Map) -> Progress {
        let clamped = |tile: i32, side: usize| tile.clamp(0, side as i32 - 1);
        let (column, row) = player.target;
        let target = (clamped(column, map.width), clamped(row, map.height));
        let (x, y) = player.place;
        Progress {
            id: player.id,
            target,
            x,
            stayed: false,
            nearest: Nearest {
                distance: distance(target, tile(map, x, y)),
                step: 0,
            },
        }
    }

    /// None where it is not there any more.
    fn input(&self, world: &World, map: &Map) -> Option<PlayerInput> {
        let slot = &world.slots[self.id as usize];
        let (column, _) = map.tile_of(State::from(slot.character).pos);
        slot.present.then(|| PlayerInput {
            direction: (self.target.0 - column as i32).signum(),
            jump: i32::from(self.stayed),
            ..PlayerInput::default()
        })
    }

    /// The record that the step took of it, if it was there.
    fn take(&mut self, published: &Published, step: i32, map: &Map) {
        let Some(CharacterCore { x, y, .. }) = published.records[self.id as usize] else {
            return;
        };
        (self.stayed, self.x) = (x == self.x, x);
        let distance = distance(self.target, tile(map, x, y));
        if distance < self.nearest.distance {
            self.nearest = Nearest { distance, step };
        }
    }
}

/// The tile of a place that is told in whole numbers.
fn tile(map: &Map, x: i32, y: i32) -> (i32, i32) {
    let (column, row) = map.tile_of(vec2::new(x as f32, y as f32));
    (column as i32, row as i32)
}

/// In columns and rows together.
fn distance(one: (i32, i32), other: (i32, i32)) -> i32 {
    (one.0 - other.0).abs() + (one.1 - other.1).abs()
}

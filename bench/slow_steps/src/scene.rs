//! A scene: the calls before a slow step.

use crate::ground::Ground;
use ponguriena::buffers::{SEATS, TUNINGS};
use ponguriena::trial::game_tunings;
use ponguriena::{CharacterId, PlayerInput, Role, Tuning, World};

/// Tunings, joins and inputs of all seats, and steps.
#[derive(Clone, Debug)]
pub struct Scene {
    pub name: String,
    /// The map of the joins.
    pub ground: Ground,
    /// The map of the steps, where it is another.
    pub stepped_on: Option<Ground>,
    pub tunings: [i32; TUNINGS],
    pub places: [(i32, i32); SEATS],
    pub inputs: [PlayerInput; SEATS],
    pub steps: usize,
    /// Indexes and values that are tuned before the last step.
    pub late: Vec<(i32, i32)>,
}

impl Scene {
    /// The game's tunings but for the named ones; an open map of one tile, and one step.
    pub fn new(
        name: &str,
        tunings: &[(Tuning, i32)],
        place: impl Fn(i32) -> (i32, i32),
        input: PlayerInput,
    ) -> Scene {
        let mut all = game_tunings();
        for &(tuning, value) in tunings {
            all[tuning as usize] = value;
        }
        Scene {
            name: name.to_string(),
            ground: Ground::open(1, 1),
            stepped_on: None,
            tunings: all,
            places: std::array::from_fn(|id| place(id as i32)),
            inputs: [input; SEATS],
            steps: 1,
            late: Vec::new(),
        }
    }

    pub fn on(self, ground: Ground) -> Scene {
        Scene { ground, ..self }
    }

    pub fn steps_ground(&self) -> &Ground {
        self.stepped_on.as_ref().unwrap_or(&self.ground)
    }

    /// The world before the first step, but for the tunings. Who may not join is absent.
    pub fn joined(&self) -> World {
        let tiles = self.ground.tiles();
        let map = self.ground.map(&tiles);
        let mut world = World::fresh();
        for (id, (&(x, y), &input)) in CharacterId::all().zip(self.places.iter().zip(&self.inputs))
        {
            if world.join(Role::Referee, &map, id, x, y).is_ok() {
                // Whoever is present may be told anything.
                let _ = world.input(Role::Referee, id, input);
            }
        }
        world
    }

    /// What is tuned before a step, by its number from 0 on: first all that is not the game's own.
    pub fn tuned_before(&self, step: usize) -> Vec<(i32, i32)> {
        let mut tuned = Vec::new();
        if step == 0 {
            let all = (0..).zip(self.tunings.into_iter().zip(game_tunings()));
            tuned.extend(
                all.filter_map(|(index, (value, game))| (value != game).then_some((index, value))),
            );
        }
        if step + 1 == self.steps {
            tuned.extend(&self.late);
        }
        tuned
    }
}

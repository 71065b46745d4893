//! A scene: a map, the calls that begin it, and inputs every few steps. It is
//! drawn once, with the world over libtw2, and then played by each side alike.

use harness::draw::is_clear;
use harness::{Call, Published, World};
use libtw2_gamenet::snap_obj::PlayerInput;
use original::CORE_NUMBERS;
use reference::Xorshift;
use tile_map::Map;

/// So many times somebody is told something.
pub const BLOCKS: usize = 60;

/// Steps from one time to the next.
pub const STEPS: usize = 5;

/// The fastest of so many rounds counts.
pub const ROUNDS: usize = 60;

/// So far from the middle of the map players join, in each coordinate.
const FARTHEST_JOIN: f32 = 400.0;

/// In units a step; the ramp works from here on under the game's own tunings.
const RAMP_START: f64 = 11.0;

pub struct Scene {
    pub name: String,
    pub map: Map,
    /// Tunes and joins.
    pub start: Vec<Call>,
    /// The inputs before each few steps.
    pub blocks: [Vec<Call>; BLOCKS],
    pub speeds: Speeds,
}

/// What the players of a scene are drawn from.
pub struct Plan<'a> {
    pub map: &'a Map,
    pub players: usize,
    /// Indexes and hundredths.
    pub tunings: &'a [(usize, i32)],
    /// What a player is told at some time, where it is told something then.
    pub tell: fn(&World, i32, &mut Xorshift) -> Option<PlayerInput>,
}

/// Of all players over all steps.
#[derive(Default)]
pub struct Speeds {
    sum: f64,
    fast: usize,
    count: usize,
}

impl Scene {
    pub fn drawn(name: &str, plan: &Plan, random: &mut Xorshift) -> Scene {
        let mut world = World::fresh();
        let mut speeds = Speeds::default();
        let start = plan.start(random);
        accept(&mut world, plan.map, &start);
        let blocks = [(); BLOCKS].map(|()| {
            let calls = plan.inputs(&world, random);
            accept(&mut world, plan.map, &calls);
            for _ in 0..STEPS {
                speeds.add(&world.step(plan.map).expect("short walks"));
            }
            calls
        });
        Scene {
            name: name.to_string(),
            map: plan.map.clone(),
            start,
            blocks,
            speeds,
        }
    }

    /// The numbers of the records of all players over all steps.
    pub fn records(&self) -> usize {
        self.speeds.count * CORE_NUMBERS
    }
}

impl Plan<'_> {
    fn start(&self, random: &mut Xorshift) -> Vec<Call> {
        let tune = |&(index, hundredths): &(usize, i32)| Call::Tune {
            index: index as i32,
            hundredths,
        };
        let mut calls: Vec<Call> = self.tunings.iter().map(tune).collect();
        calls.extend(joins(self.map, self.players, random));
        calls
    }

    fn inputs(&self, world: &World, random: &mut Xorshift) -> Vec<Call> {
        let input = |id| {
            let input = (self.tell)(world, id, random)?;
            Some(Call::Input { id, input })
        };
        (0..self.players as i32).filter_map(input).collect()
    }
}

/// Of the first ids.
pub fn joins(map: &Map, players: usize, random: &mut Xorshift) -> Vec<Call> {
    let ids = 0..players as i32;
    ids.map(|id| join(map, id, random)).collect()
}

/// Near the middle, where it is clear.
fn join(map: &Map, id: i32, random: &mut Xorshift) -> Call {
    let middle = map.extent() * 0.5;
    loop {
        let x = (middle.x + random.within(FARTHEST_JOIN)) as i32;
        let y = (middle.y + random.within(FARTHEST_JOIN)) as i32;
        if is_clear(map, x, y) {
            return Call::Join { id, x, y };
        }
    }
}

fn accept(world: &mut World, map: &Map, calls: &[Call]) {
    for &call in calls {
        if let Err(refusal) = world.call(map, call) {
            panic!("a call of the scene is refused: {refusal:?}");
        }
    }
}

impl Speeds {
    fn add(&mut self, published: &Published) {
        for core in published.records.iter().flatten() {
            let speed = f64::hypot(f64::from(core.vel_x), f64::from(core.vel_y)) / 256.0;
            self.sum += speed;
            self.fast += usize::from(speed > RAMP_START);
            self.count += 1;
        }
    }

    /// In units a step.
    pub fn mean(&self) -> f64 {
        self.sum / self.count as f64
    }

    /// The share above the ramp's start, in percent.
    pub fn fast(&self) -> f64 {
        100.0 * self.fast as f64 / self.count as f64
    }
}

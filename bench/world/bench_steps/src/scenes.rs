//! The scenes that are timed.

use crate::scene::{Plan, Scene};
use harness::draw::{any_input, input_at_somebody};
use harness::tunings::{
    AIR_CONTROL_ACCEL, AIR_CONTROL_SPEED, GRAVITY, GROUND_CONTROL_ACCEL, GROUND_CONTROL_SPEED,
};
use harness::{SEATS, World};
use libtw2_gamenet::snap_obj::PlayerInput;
use original::State;
use reference::Xorshift;
use tile_map::Map;
use tile_map::draw::{below, pick};
use tile_map::walled::{hall, walled};

const WIDTH: usize = 256;
const HEIGHT: usize = 128;

/// Up to the largest that a map may be.
const MAPS: [(usize, usize); 3] = [(64, 32), (WIDTH, HEIGHT), (1024, 1024)];

const PLAYERS: [usize; 7] = [1, 2, 4, 8, 16, 32, SEATS];

/// In units a step.
const SPEEDS: [i32; 5] = [5, 10, 20, 40, 80];

/// The speed of those who run, where half do.
const FAST: i32 = 30;

/// In hundredths, for those who run.
const ACCEL: i32 = 1000;

/// Those that a league would play.
pub fn games(random: &mut Xorshift) -> Vec<Scene> {
    let map = &course(random);
    let fast = Plan {
        map,
        players: SEATS,
        tunings: &running(FAST),
        tell: most_run,
    };
    vec![
        Scene::drawn("sixty-four in play", &ordinary(map, SEATS), random),
        Scene::drawn("sixty-four at speed", &fast, random),
        Scene::drawn("sixteen of sixty-four in play", &ordinary(map, 16), random),
        Scene::drawn("two of sixty-four", &ordinary(map, 2), random),
        Scene::drawn("one of sixty-four", &ordinary(map, 1), random),
    ]
}

/// Growth with the number of players.
pub fn by_players(random: &mut Xorshift) -> Vec<Scene> {
    let map = &course(random);
    let scene = |&players: &usize| {
        let name = format!("players: {players}");
        Scene::drawn(&name, &ordinary(map, players), random)
    };
    PLAYERS.iter().map(scene).collect()
}

/// Growth with the map.
pub fn by_map(random: &mut Xorshift) -> Vec<Scene> {
    let scene = |&(width, height): &(usize, usize)| {
        let map = walled(width, height, random).without_spikes();
        let name = format!("map: {width} by {height}");
        Scene::drawn(&name, &ordinary(&map, SEATS), random)
    };
    MAPS.iter().map(scene).collect()
}

/// For the calls that are not steps.
pub fn crowds(random: &mut Xorshift) -> [Scene; 2] {
    let map = &course(random);
    [("sixty-four", SEATS), ("one", 1)]
        .map(|(name, players)| Scene::drawn(name, &ordinary(map, players), random))
}

/// Growth with speed, where no wall is in the way for long.
pub fn by_speed(random: &mut Xorshift) -> Vec<Scene> {
    let map = &hall(WIDTH, HEIGHT, random);
    let scene = |&speed: &i32| {
        let plan = Plan {
            map,
            players: SEATS,
            tunings: &running(speed),
            tell: run,
        };
        Scene::drawn(&format!("running at {speed}"), &plan, random)
    };
    SPEEDS.iter().map(scene).collect()
}

/// Without spikes, so that everybody plays to the end.
pub fn course(random: &mut Xorshift) -> Map {
    walled(WIDTH, HEIGHT, random).without_spikes()
}

/// Under the game's own tunings.
fn ordinary(map: &Map, players: usize) -> Plan<'_> {
    Plan {
        map,
        players,
        tunings: &[],
        tell: now_and_then,
    }
}

/// Without gravity, so that a way goes on until a wall.
fn running(speed: i32) -> [(usize, i32); 5] {
    [
        (GROUND_CONTROL_SPEED, 100 * speed),
        (AIR_CONTROL_SPEED, 100 * speed),
        (GROUND_CONTROL_ACCEL, ACCEL),
        (AIR_CONTROL_ACCEL, ACCEL),
        (GRAVITY, 0),
    ]
}

/// Half of the times, and then most often aimed at somebody.
fn now_and_then(world: &World, id: i32, random: &mut Xorshift) -> Option<PlayerInput> {
    match below(random, 6) {
        0..=2 => None,
        3 => Some(any_input(random)),
        _ => Some(input_at_somebody(world, id, random)),
    }
}

/// Three of four run; the rest stand and aim.
fn most_run(world: &World, id: i32, random: &mut Xorshift) -> Option<PlayerInput> {
    let input = run(world, id, random)?;
    let direction = if id % 4 == 3 { 0 } else { input.direction };
    Some(PlayerInput { direction, ..input })
}

/// On, or any way after a wall; nobody jumps or hooks.
fn run(world: &World, id: i32, random: &mut Xorshift) -> Option<PlayerInput> {
    let vel = State::from(world.slots[id as usize].character).vel;
    let direction = match vel.x {
        x if x > 1.0 => 1,
        x if x < -1.0 => -1,
        _ => pick(random, &[-1, 1]),
    };
    Some(PlayerInput {
        direction,
        jump: 0,
        hook: 0,
        ..any_input(random)
    })
}

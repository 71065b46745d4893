//! Moves into walls and into others, and with all velocities and ramps.

use crate::case::Case;
use crate::crowd::crowd;
use crate::scene::{SCENE, Scene, at};
use harness::tunings::{PLAYER_COLLISION, RAMP_CURVATURE, RAMP_RANGE, RAMP_START};
use original::{State, vec2};
use reference::Xorshift;
use tile_map::draw::{below, between, pair_within, pick};
use tile_map::maps::{all, open, room};

const MIDDLE: vec2 = vec2 { x: 100.0, y: 60.0 };

const VELOCITIES: [f32; 14] = [
    0.0,
    1e-5,
    0.00001001,
    0.5,
    10.999,
    11.0,
    51.0,
    6000.0,
    65535.496,
    65535.5,
    1e20,
    f32::INFINITY,
    f32::NEG_INFINITY,
    f32::NAN,
];

pub fn move_cases(random: &mut Xorshift) -> Vec<Case> {
    let mut scenes = on_maps(random);
    scenes.extend(onto_others());
    scenes.extend(through_crowds(random));
    scenes.extend(velocities());
    scenes.extend(ramps(random));
    scenes.extend(long_walks());
    scenes.into_iter().map(Case::moved).collect()
}

/// Alone or among a few, into walls and corners.
fn on_maps(random: &mut Xorshift) -> Vec<Scene> {
    let mut scenes = Vec::new();
    for map in all() {
        for _ in 0..12 {
            let count = 1 + below(random, 3);
            let scene = crowd(&map, count, random);
            let id = scene.id;
            let vel = pair_within(random, 40.0);
            let me = scene.me();
            scenes.push(scene.with(id, State { vel, ..me }));
        }
    }
    // The walls of the room meet at (32, 32).
    for (x, y) in [(-20.0, -20.0), (-20.0, 0.0), (-9.0, -30.0)] {
        let me = State {
            vel: vec2::new(x, y),
            ..at(vec2::new(50.0, 50.0))
        };
        scenes.push(Scene::new(&room(), 3, me));
    }
    scenes
}

/// At the start, in the middle and at the end of the way, and leaving somebody.
fn onto_others() -> Vec<Scene> {
    let mut scenes = Vec::new();
    for speed in [0.0, 0.5, 20.0, 50.0] {
        for along in [-20.0, -5.0, 0.0, 5.0, 27.9, 28.0, 28.5, 45.0, 70.0, 78.1] {
            let me = State {
                vel: vec2::new(speed, 0.0),
                ..at(MIDDLE)
            };
            let other = at(MIDDLE + vec2::new(along, 0.0));
            let scene = Scene::new(&open(), 9, me).with(4, other);
            if along == 28.5 {
                scenes.push(scene.clone().tuned(PLAYER_COLLISION, 0));
                scenes.push(scene.clone().tuned(PLAYER_COLLISION, i32::MIN));
            }
            scenes.push(scene);
        }
    }
    // No farther at the end than at the start, and a little farther.
    for along in [3.5, 3.4999998] {
        let vel = vec2::new(7.0, 0.0);
        let other = at(MIDDLE + vec2::new(along, 10.0));
        scenes.push(Scene::new(&open(), 9, State { vel, ..at(MIDDLE) }).with(4, other));
    }
    scenes
}

/// The first of those that are close in the first turn decides.
fn through_crowds(random: &mut Xorshift) -> Vec<Scene> {
    let mut scenes = Vec::new();
    for count in 2..=SCENE {
        for map in [open(), room()] {
            let scene = crowd(&map, count, random);
            let id = scene.id;
            let vel = pair_within(random, 60.0);
            let me = scene.me();
            scenes.push(scene.with(id, State { vel, ..me }));
        }
    }
    for _ in 0..20 {
        let vel = pair_within(random, 40.0);
        let mut scene = Scene::new(&open(), 8, State { vel, ..at(MIDDLE) });
        for _ in 0..3 {
            let along = vel * between(random, 0.3, 1.5);
            let other = at(MIDDLE + along + pair_within(random, 25.0));
            scene = scene.with_other(below(random, SCENE), other);
        }
        scenes.push(scene);
    }
    scenes
}

fn velocities() -> Vec<Scene> {
    let mut scenes = Vec::new();
    for speed in VELOCITIES {
        for vel in [
            vec2::new(speed, 0.0),
            vec2::new(0.0, -speed),
            vec2::new(speed, speed),
        ] {
            let scene = Scene::new(&open(), 2, State { vel, ..at(MIDDLE) });
            scenes.push(scene.with(3, at(MIDDLE + vec2::new(300.0, 10.0))));
        }
    }
    scenes
}

/// Where the ramp begins and beyond, with tunings at their ends.
fn ramps(random: &mut Xorshift) -> Vec<Scene> {
    let mut scenes = Vec::new();
    for index in [RAMP_START, RAMP_RANGE, RAMP_CURVATURE] {
        for hundredths in [0, 1, -1, 100, -140, 55000, i32::MIN, i32::MAX] {
            for speed in [5.0, 60.0] {
                let scene = crowd(&pick(random, &[open as fn() -> _, room])(), 2, random);
                let (id, vel) = (scene.id, pair_within(random, speed));
                let me = scene.me();
                let scene = scene.with(id, State { vel, ..me });
                scenes.push(scene.tuned(index, hundredths));
            }
        }
    }
    // At the start of the ramp 0 is divided by 0.
    for speed in [11.0, 10.999999] {
        let vel = vec2::new(speed, 0.0);
        let scene = Scene::new(&open(), 1, State { vel, ..at(MIDDLE) });
        scenes.push(scene.tuned(RAMP_RANGE, 0));
    }
    scenes
}

/// Walks of as many turns as run, and of more: of the box, and among others after it.
fn long_walks() -> Vec<Scene> {
    let mut scenes = Vec::new();
    for speed in [65534.9, 65535.0, 65535.4, 65535.5, 65536.0, 2147483600.0] {
        // A turn's way is kept from the first, rounded up to 1 from the second, to 0 from the third.
        for start in [0.0, 8388608.0, 1e9] {
            for collision in [0, 100] {
                let me = State {
                    vel: vec2::new(0.0, speed),
                    ..at(vec2::new(0.0, start))
                };
                let other = at(vec2::new(0.0, 65500.0));
                let scene = Scene::new(&open(), 0, me).with(15, other);
                scenes.push(scene.tuned(PLAYER_COLLISION, collision));
            }
        }
    }
    scenes
}

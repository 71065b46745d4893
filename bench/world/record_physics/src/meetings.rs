//! Ticks among others that are near, and of others that are dragged.

use crate::case::Case;
use crate::crowd::crowd;
use crate::scene::{SCENE, Scene, at};
use harness::tunings::{
    HOOK_DRAG_ACCEL, HOOK_DRAG_SPEED, HOOK_LENGTH, PLAYER_COLLISION, PLAYER_HOOKING,
};
use original::{CharacterId, Hook, State, vec2};
use reference::Xorshift;
use tile_map::draw::pair_within;
use tile_map::maps::{all, open};

const MIDDLE: vec2 = vec2 { x: 80.0, y: 40.0 };

/// From here distances are kept to the last digit.
const ORIGIN: vec2 = vec2 { x: 0.0, y: 0.0 };

/// The same place, nearly so, and about 28, 35 and 42.
const DISTANCES: [f32; 16] = [
    0.0, 1e-30, 0.001, 1.0, 27.9, 28.0, 28.1, 34.9, 34.999996, 35.0, 35.000004, 40.6, 41.9, 42.0,
    42.000004, 42.1,
];

/// Gravity is added to the last before the meeting, and leaves 0.
const VELOCITIES: [(f32, f32); 4] = [(3.0, -7.0), (0.0, 8.0), (-40.0, 0.0), (0.0, -0.5)];

pub fn meeting_cases(random: &mut Xorshift) -> Vec<Case> {
    let mut scenes = one_other();
    scenes.extend(two_others());
    scenes.extend(dragged());
    scenes.extend(crowds(random));
    scenes.into_iter().map(Case::tick).collect()
}

fn one_other() -> Vec<Scene> {
    let mut scenes = Vec::new();
    for distance in DISTANCES {
        for (turn, (x, y)) in VELOCITIES.into_iter().enumerate() {
            let way = [(1.0, 0.0), (0.0, -1.0), (0.6, 0.8), (-0.8, 0.6)][turn];
            let me = State {
                vel: vec2::new(x, y),
                hook: Hook::Grabbed(CharacterId(14), 20),
                ..at(ORIGIN)
            };
            let other = at(ORIGIN + vec2::new(way.0, way.1) * distance);
            scenes.push(Scene::new(&open(), 13, me).with(14, other));
        }
    }
    scenes
}

/// The second finds the velocity that the first has left.
fn two_others() -> Vec<Scene> {
    let mut scenes = Vec::new();
    for (first, second) in [(10.0, 20.0), (30.0, 34.0), (34.0, 10.0), (36.0, 20.0)] {
        for (x, y) in VELOCITIES {
            let vel = vec2::new(x, y);
            scenes.push(
                Scene::new(&open(), 5, State { vel, ..at(MIDDLE) })
                    .with(2, at(MIDDLE + vec2::new(first, 3.0)))
                    .with(8, at(MIDDLE - vec2::new(4.0, second))),
            );
        }
    }
    scenes
}

/// Fast and slow, near and far, with tunings at their ends.
fn dragged() -> Vec<Scene> {
    let mut scenes = Vec::new();
    for (x, y) in [(0.0, 0.0), (14.9, -14.9), (-15.0, 15.1), (30.0, -30.0)] {
        for distance in [43.0, 150.0, 500.0] {
            let me = State {
                vel: vec2::new(y, x),
                hook: Hook::Grabbed(CharacterId(0), 1),
                ..at(MIDDLE)
            };
            let other = State {
                vel: vec2::new(x, y),
                ..at(MIDDLE + vec2::new(0.28, 0.96) * distance)
            };
            let scene = Scene::new(&open(), 15, me).with(0, other);
            scenes.push(scene.clone().tuned(HOOK_DRAG_SPEED, -1500));
            scenes.push(scene.clone().tuned(HOOK_DRAG_ACCEL, -300));
            scenes.push(scene.clone().tuned(HOOK_LENGTH, 0));
            scenes.push(
                scene
                    .clone()
                    .tuned(HOOK_LENGTH, 0)
                    .tuned(HOOK_DRAG_ACCEL, 0),
            );
            scenes.push(scene);
        }
    }
    scenes
}

/// All numbers of characters, some of them grabbed.
fn crowds(random: &mut Xorshift) -> Vec<Scene> {
    let mut scenes = Vec::new();
    for count in 2..=SCENE {
        for map in all() {
            let scene = crowd(&map, count, random);
            let id = scene.id;
            let me = State {
                vel: pair_within(random, 20.0),
                hook: Hook::Grabbed(
                    CharacterId(random.pattern() % SCENE as u32),
                    random.pattern() % 62,
                ),
                ..scene.me()
            };
            let scene = scene.with(id, me);
            scenes.push(match random.pattern() % 4 {
                0 => scene.tuned(PLAYER_COLLISION, 0),
                1 => scene.tuned(PLAYER_HOOKING, 0),
                2 => scene.tuned(PLAYER_COLLISION, -1).tuned(PLAYER_HOOKING, 1),
                _ => scene,
            });
        }
    }
    scenes
}

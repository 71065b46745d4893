//! Ticks with all inputs, velocities and tunings.

use crate::case::Case;
use crate::crowd::crowd;
use crate::scene::{SCENE, Scene, at};
use harness::draw::{FIRST_TUNINGS, extreme_tuning};
use harness::tunings::{AIR_FRICTION, GRAVITY};
use libtw2_gamenet::snap_obj::PlayerInput;
use original::{State, vec2};
use reference::Xorshift;
use tile_map::draw::{below, pick};
use tile_map::maps::{all, floor, open};

/// Just on the ground of `floor`, just above it, in the air, on the ground.
const HEIGHTS: [f32; 4] = [76.5, 76.49999, 50.0, 77.0];

const EXTREME_TUNINGS: [i32; 6] = [0, 1, -1, -1000, i32::MIN, i32::MAX];

const TARGETS: [i32; 6] = [0, 1, -1, 300, i32::MIN, i32::MAX];

/// Each is taken in both coordinates.
const VELOCITIES: [f32; 11] = [
    0.0,
    -0.0,
    4.9,
    -10.0,
    4242.0,
    6000.0,
    -6000.5,
    1e20,
    f32::INFINITY,
    f32::NEG_INFINITY,
    f32::NAN,
];

pub fn steering_cases(random: &mut Xorshift) -> Vec<Case> {
    let mut scenes = jumps();
    scenes.extend(targets());
    scenes.extend(velocities(random));
    scenes.extend(one_tuning(random));
    scenes.extend(all_tunings(random));
    scenes.into_iter().map(Case::tick).collect()
}

/// Every flag on the ground and in the air, and every direction.
fn jumps() -> Vec<Scene> {
    let mut scenes = Vec::new();
    for (turn, y) in HEIGHTS.into_iter().enumerate() {
        for flags in 0..8u32 {
            let me = State {
                vel: vec2::new(3.0, -2.0),
                jumped_already: flags % 2 == 1,
                used_airjump: flags / 2 % 2 == 1,
                ..at(vec2::new(100.0, y))
            };
            let input = PlayerInput {
                jump: (flags / 4) as i32 * [1, -1, i32::MIN, 2][turn],
                direction: [0, 1, -1, i32::MIN, i32::MAX][(flags as usize + turn) % 5],
                ..PlayerInput::default()
            };
            scenes.push(Scene::new(&floor(), 0, me).told(input));
        }
    }
    scenes
}

fn targets() -> Vec<Scene> {
    let mut scenes = Vec::new();
    for target_x in TARGETS {
        for target_y in TARGETS {
            let input = PlayerInput {
                target_x,
                target_y,
                hook: 1,
                ..PlayerInput::default()
            };
            let me = at(vec2::new(100.0, 40.0));
            let scene = Scene::new(&floor(), 1, me).with(2, at(vec2::new(170.0, 45.0)));
            scenes.push(scene.told(input));
        }
    }
    scenes
}

fn velocities(random: &mut Xorshift) -> Vec<Scene> {
    let mut scenes = Vec::new();
    for x in VELOCITIES {
        for y in [x, 0.0, -5000.0] {
            let vel = vec2::new(x, y);
            let me = at(vec2::new(100.0, pick(random, &HEIGHTS)));
            let scene = Scene::new(&floor(), 7, State { vel, ..me });
            let input = PlayerInput {
                direction: pick(random, &[-1, 0, 1]),
                ..PlayerInput::default()
            };
            scenes.push(scene.with(6, at(vec2::new(110.0, 60.0))).told(input));
        }
    }
    // Friction and gravity may make a not-a-number of an infinite velocity.
    let falling = State {
        vel: vec2::new(f32::INFINITY, f32::NEG_INFINITY),
        ..at(vec2::default())
    };
    scenes.push(Scene::new(&open(), 7, falling).tuned(AIR_FRICTION, 0));
    scenes.push(Scene::new(&open(), 7, falling).tuned(GRAVITY, i32::MAX));
    // Of length 6,000, and one float more.
    for (x, y) in [(3600.0, 4800.0), (-1680.0, 5760.0), (1680.0, 5760.0005)] {
        let vel = vec2::new(x, y);
        scenes.push(
            Scene::new(
                &open(),
                7,
                State {
                    vel,
                    ..at(vec2::default())
                },
            )
            .without_air(),
        );
    }
    scenes
}

fn one_tuning(random: &mut Xorshift) -> Vec<Scene> {
    let mut scenes = Vec::new();
    for index in 0..FIRST_TUNINGS {
        for hundredths in EXTREME_TUNINGS {
            let count = 2 + below(random, 4);
            let map = all()[scenes.len() % 4].clone();
            scenes.push(crowd(&map, count, random).tuned(index, hundredths));
        }
    }
    scenes
}

fn all_tunings(random: &mut Xorshift) -> Vec<Scene> {
    let mut scenes = Vec::new();
    for _ in 0..40 {
        let map = all()[scenes.len() % 4].clone();
        let count = 2 + below(random, SCENE - 1);
        let mut scene = crowd(&map, count, random);
        for index in 0..FIRST_TUNINGS {
            scene = scene.tuned(index, extreme_tuning(index, random));
        }
        scenes.push(scene);
    }
    scenes
}

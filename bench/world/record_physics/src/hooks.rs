//! Ticks in which the hook matters.

use crate::case::Case;
use crate::crowd::{HOOKS, crowd, with_hook};
use crate::scene::{SCENE, Scene, at};
use harness::tunings::{HOOK_DRAG_SPEED, HOOK_FIRE_SPEED, HOOK_LENGTH, PLAYER_HOOKING};
use libtw2_gamenet::snap_obj::PlayerInput;
use original::{CharacterId, Hook, State, vec2};
use reference::Xorshift;
use tile_map::draw::{below, between, pair_within, pick};
use tile_map::maps::{all, floor, open};

const MIDDLE: vec2 = vec2 { x: 200.0, y: 50.0 };

/// From here distances are kept to the last digit.
const ORIGIN: vec2 = vec2 { x: 0.0, y: 0.0 };

/// Others beside a hook's way are grabbed up to this distance.
const SIDES: [f32; 7] = [0.0, 5.0, 27.9, 27.999998, 28.0, 28.000002, 28.1];

/// From this distance on an attached hook drags.
const DRAG_DISTANCES: [f32; 6] = [0.0, 45.9, 46.0, 46.000004, 46.1, 200.0];

const GRABBED_TICKS: [u32; 6] = [0, 58, 59, 60, 61, u32::MAX];

pub fn hook_cases(random: &mut Xorshift) -> Vec<Case> {
    let mut scenes = every_hook(random);
    scenes.extend(grabbed());
    scenes.extend(beside_the_way());
    scenes.extend(equally_far());
    scenes.extend(among_many(random));
    scenes.extend(at_the_length());
    scenes.extend(onto_tiles(random));
    scenes.extend(without_a_way());
    scenes.extend(attached(random));
    scenes.extend(at_the_drag_speed());
    scenes.extend(refused());
    scenes.into_iter().map(Case::tick).collect()
}

/// Each case, held and let go, on each map.
fn every_hook(random: &mut Xorshift) -> Vec<Scene> {
    let mut scenes = Vec::new();
    for case in 0..HOOKS {
        for hook in [0, 1, -1] {
            for map in all() {
                let count = 2 + below(random, SCENE - 1);
                let scene = crowd(&map, count, random);
                let (id, me) = (scene.id, with_hook(scene.me(), case, random));
                let input = PlayerInput {
                    hook,
                    ..scene.input()
                };
                scenes.push(scene.with(id, me).told(input));
            }
        }
    }
    scenes
}

/// Somebody present, absent, itself, the last slot of the scene, and ids beyond it.
fn grabbed() -> Vec<Scene> {
    let (me, present, absent) = (3, 7, 5);
    let mut scenes = Vec::new();
    for id in [present, absent, me, 15, 16, u32::MAX] {
        for tick in GRABBED_TICKS {
            let hook = Hook::Grabbed(CharacterId(id), tick);
            let scene = Scene::new(&open(), me as usize, State { hook, ..at(MIDDLE) })
                .with(present as usize, at(MIDDLE + vec2::new(90.0, -30.0)))
                .with(15, at(MIDDLE - vec2::new(60.0, 45.0)));
            if tick == 0 {
                scenes.push(scene.clone().tuned(PLAYER_HOOKING, 0));
                scenes.push(scene.clone().told(PlayerInput::default()));
            }
            scenes.push(scene);
        }
    }
    scenes
}

fn flying(me: vec2, pos: vec2, dir: vec2) -> State {
    let hook = Hook::Flying(pos, dir);
    State { hook, ..at(me) }
}

/// Before, beside and behind the way.
fn beside_the_way() -> Vec<Scene> {
    let start = ORIGIN + vec2::new(42.0, 0.0);
    let mut scenes = Vec::new();
    for side in SIDES {
        for along in [-20.0, 0.0, 50.0, 80.0, 100.0] {
            let other = at(start + vec2::new(along, side));
            let scene = Scene::new(&open(), 2, flying(ORIGIN, start, vec2::new(1.0, 0.0)));
            scenes.push(scene.with(9, other));
        }
    }
    for along in [-28.0, -27.999998, 107.99999, 108.0] {
        let other = at(start + vec2::new(along, 0.0));
        let scene = Scene::new(&open(), 2, flying(ORIGIN, start, vec2::new(1.0, 0.0)));
        scenes.push(scene.clone().with(9, other).tuned(PLAYER_HOOKING, 0));
        scenes.push(scene.with(9, other));
    }
    scenes
}

/// The first of two at the same distance is grabbed, a nearer one after it too.
fn equally_far() -> Vec<Scene> {
    let start = MIDDLE - vec2::new(0.0, 42.0);
    let offsets = [(20.0, -40.0), (-20.0, -40.0), (0.0, -70.0), (20.0, -41.0)];
    let mut scenes = Vec::new();
    for first in offsets {
        for second in offsets {
            let me = flying(MIDDLE, start, vec2::new(0.0, -1.0));
            let beside = |(x, y)| at(start + vec2::new(x, y));
            let scene = Scene::new(&open(), 6, me).with(1, beside(first));
            scenes.push(scene.clone().with(4, beside(second)));
            scenes.push(scene.with(12, beside(second)));
        }
    }
    scenes
}

fn among_many(random: &mut Xorshift) -> Vec<Scene> {
    let mut scenes = Vec::new();
    for _ in 0..30 {
        let dir = pair_within(random, 1.0).normalize();
        let start = MIDDLE + dir * between(random, 0.0, 200.0);
        let mut scene = Scene::new(&open(), below(random, SCENE), flying(MIDDLE, start, dir));
        for _ in 0..1 + below(random, 12) {
            let along = between(random, -40.0, 120.0);
            let side = vec2::new(-dir.y, dir.x) * random.within(40.0);
            scene = scene.with_other(below(random, SCENE), at(start + dir * along + side));
        }
        scenes.push(scene);
    }
    scenes
}

/// Just within its length, at it and beyond, with and without a wall there.
fn at_the_length() -> Vec<Scene> {
    let mut scenes = Vec::new();
    for map in [open(), floor()] {
        for distance in [299.9, 300.0, 300.00003, 300.1, 379.0, 380.0, 500.0] {
            let right = vec2::new(1.0, 0.0);
            let me = flying(MIDDLE, MIDDLE + right * distance, right);
            scenes.push(Scene::new(&map, 0, me));
        }
        for distance in [30.0, 50.0, 100.0, 300.0, 400.0] {
            let down = vec2::new(0.0, 1.0);
            let me = flying(MIDDLE, MIDDLE + down * distance, down);
            let scene = Scene::new(&map, 0, me);
            scenes.push(scene.clone().tuned(HOOK_LENGTH, 4600));
            scenes.push(scene.tuned(HOOK_LENGTH, 4700));
        }
    }
    scenes
}

/// Fired, and flying on, at the tiles of each map.
fn onto_tiles(random: &mut Xorshift) -> Vec<Scene> {
    let mut scenes = Vec::new();
    for map in all() {
        for _ in 0..10 {
            let scene = crowd(&map, 2, random);
            let (id, me) = (scene.id, scene.me());
            let dir = pair_within(random, 1.0).normalize();
            let start = me.pos + dir * 42.0;
            let hook = pick(random, &[Hook::Idle, Hook::Flying(start, dir)]);
            let input = PlayerInput {
                hook: 1,
                ..scene.input()
            };
            scenes.push(scene.with(id, State { hook, ..me }).told(input));
        }
    }
    scenes
}

/// Ways of length 0 and of no length at all.
fn without_a_way() -> Vec<Scene> {
    let start = MIDDLE + vec2::new(42.0, 0.0);
    let nowhere = vec2::new(f32::NAN, f32::NAN);
    let mut scenes = Vec::new();
    for map in [open(), floor()] {
        for (pos, dir) in [
            (start, vec2::default()),
            (start, nowhere),
            (nowhere, vec2::new(1.0, 0.0)),
            (start, vec2::new(f32::INFINITY, 0.0)),
            (MIDDLE, vec2::new(1e-30, 0.0)),
        ] {
            let scene = Scene::new(&map, 4, flying(MIDDLE, pos, dir)).with(8, at(start));
            scenes.push(scene.clone().tuned(HOOK_FIRE_SPEED, 0));
            scenes.push(scene.clone().tuned(HOOK_LENGTH, 0));
            scenes.push(scene);
        }
    }
    scenes
}

/// Near and far, up and down, with and against the direction, at several speeds.
fn attached(random: &mut Xorshift) -> Vec<Scene> {
    let ways = [(1.0, 0.0), (0.0, -1.0), (0.0, 1.0), (-0.6, -0.8)];
    let mut scenes = Vec::new();
    for distance in DRAG_DISTANCES {
        for (x, y) in ways {
            let me = State {
                vel: pick(random, &[0.0, 8.0, 14.9, 20.0].map(|x| vec2::new(-x, x))),
                hook: Hook::Attached(ORIGIN + vec2::new(x, y) * distance),
                ..at(ORIGIN)
            };
            let scene = Scene::new(&open(), 11, me).with(10, at(ORIGIN + vec2::new(30.0, 0.0)));
            let input = PlayerInput {
                direction: pick(random, &[-1, 0, 1]),
                ..scene.input()
            };
            scenes.push(scene.told(input));
        }
    }
    scenes
}

/// Dragged to just the drag speed, and to just as fast the other way: the pull is 2.25.
fn at_the_drag_speed() -> Vec<Scene> {
    let mut scenes = Vec::new();
    for (vel_x, drag_speed) in [(12.75, 1500), (12.75, 1499), (-1.125, 0), (-1.25, 0)] {
        let me = State {
            vel: vec2::new(vel_x, 0.0),
            hook: Hook::Attached(MIDDLE + vec2::new(64.0, 0.0)),
            ..at(MIDDLE)
        };
        let scene = Scene::new(&open(), 11, me).without_air();
        scenes.push(scene.tuned(HOOK_DRAG_SPEED, drag_speed));
    }
    scenes
}

/// Ways with as many turns as run, and with more.
fn refused() -> Vec<Scene> {
    let mut scenes = Vec::new();
    for length in [0x477f_fffe, 0x477f_ffff, 0x4780_0000].map(f32::from_bits) {
        for start in [ORIGIN, vec2::new(0.0, length)] {
            let me = flying(ORIGIN, start, vec2::new(length / 80.0, 0.0));
            let scene = Scene::new(&open(), 1, me).tuned(HOOK_LENGTH, i32::MAX);
            scenes.push(scene.clone().with(0, at(vec2::new(5.0, 5.0))));
            // A way that is cut to the hook's length from far behind.
            scenes.push(scene.tuned(HOOK_LENGTH, 38000));
        }
    }
    scenes
}

//! Ids beyond those that a line tells the slots of: whose turn it is, and who is held.

use crate::case::Case;
use crate::scene::{SCENE, Scene, at};
use harness::SEATS;
use harness::tunings::{GRAVITY, PLAYER_COLLISION, PLAYER_HOOKING};
use libtw2_gamenet::snap_obj::PlayerInput;
use original::{CharacterId, Hook, State, vec2};
use tile_map::maps::{all, open, room};

/// About the first of them and about the last.
const IDS: [usize; 4] = [SCENE, SCENE + 1, SEATS - 2, SEATS - 1];

/// The next tick is the 60th, and one more.
const GRABBED_TICKS: [u32; 3] = [0, 59, 60];

const HOOK: PlayerInput = PlayerInput {
    direction: 0,
    target_x: 100,
    target_y: 0,
    jump: 0,
    hook: 1,
};

pub fn seat_cases() -> Vec<Case> {
    let mut cases: Vec<Case> = IDS.into_iter().flat_map(ticks).map(Case::tick).collect();
    cases.extend(IDS.into_iter().flat_map(moves).map(Case::moved));
    cases.extend(held_beyond().into_iter().map(Case::tick));
    cases
}

/// In the air, inside a wall, pushed by two, and with a hook on the nearest or on the first
/// of two who are as near.
fn ticks(id: usize) -> Vec<Scene> {
    let mut scenes: Vec<Scene> = all().iter().map(|map| Scene::beyond(map, id)).collect();
    let run = PlayerInput {
        direction: -1,
        jump: 1,
        ..HOOK
    };
    scenes.extend([open(), room()].map(|map| Scene::beyond(&map, id).told(run)));
    scenes.push(pushed(id));
    scenes.push(pushed(id).tuned(PLAYER_COLLISION, 0));
    let hooks = Scene::beyond(&open(), id).told(HOOK);
    let others = [(0, 110.0, 3.0), (SCENE - 1, 90.0, -20.0), (7, 300.0, 0.0)];
    let fires = others.into_iter().fold(hooks.clone(), with);
    scenes.push(fires.clone().tuned(PLAYER_HOOKING, 0));
    scenes.push(fires);
    let as_near = [(12, 82.0, 20.0), (4, 82.0, -20.0)];
    scenes.push(as_near.into_iter().fold(hooks, with));
    scenes
}

fn with(scene: Scene, (id, x, y): (usize, f32, f32)) -> Scene {
    scene.with(id, at(vec2::new(x, y)))
}

fn pushed(id: usize) -> Scene {
    let others = [(3, 20.0, 5.0), (SCENE - 1, -25.0, -8.0)];
    others.into_iter().fold(Scene::beyond(&open(), id), with)
}

/// It is at rest: a way of no length, alone and close to others.
fn moves(id: usize) -> Vec<Scene> {
    vec![Scene::beyond(&open(), id), pushed(id)]
}

/// By one whose slot is told: somebody absent, and ids that no seat has.
fn held_beyond() -> Vec<Scene> {
    let mut scenes = Vec::new();
    for held in [IDS.as_slice(), &[SEATS, SEATS + 1]].concat() {
        for tick in GRABBED_TICKS {
            let me = State {
                hook: Hook::Grabbed(CharacterId(held as u32), tick),
                ..at(vec2::new(60.0, 40.0))
            };
            let scene = Scene::new(&open(), 8, me).tuned(GRAVITY, 0);
            scenes.push(scene.with(2, at(vec2::new(160.0, 40.0))));
        }
    }
    scenes
}

//! Ticks in which a hook reaches the hold.

use crate::case::Case;
use crate::scene::{Scene, at};
use harness::tunings::HOOK_HOLD;
use libtw2_gamenet::snap_obj::PlayerInput;
use original::{CharacterId, Hook, State, vec2};
use tile_map::maps::open;

const HOLDER: usize = 3;
const HELD: usize = 7;

const HOLDS: [i32; 5] = [1, 2, 30, 59, 60];

/// Each is read as the nearest hold.
const NO_HOLDS: [i32; 6] = [0, -1, i32::MIN, 61, 6000, i32::MAX];

pub fn hold_cases() -> Vec<Case> {
    let mut scenes = Vec::new();
    for hold in HOLDS {
        let ticks = [hold - 1, hold, hold + 1].map(i32::cast_unsigned);
        scenes.extend(ticks.map(|tick| holding(hold, tick)));
        scenes.push(holding(hold, u32::MAX));
        scenes.push(holding(hold, 60).told(PlayerInput::default()));
        scenes.push(grabs(hold));
    }
    for hold in NO_HOLDS {
        scenes.extend([0, 1, 59, 60].map(|tick| holding(hold, tick)));
        scenes.push(grabs(hold));
    }
    scenes.into_iter().map(Case::tick).collect()
}

fn with_hook(hook: Hook) -> Scene {
    let me = at(vec2::new(200.0, 50.0));
    let held = at(vec2::new(290.0, 20.0));
    Scene::new(&open(), HOLDER, State { hook, ..me }).with(HELD, held)
}

fn holding(hold: i32, tick: u32) -> Scene {
    with_hook(Hook::Grabbed(CharacterId(HELD as u32), tick)).tuned(HOOK_HOLD, hold)
}

/// In this tick, which counts.
fn grabs(hold: i32) -> Scene {
    let (pos, dir) = (vec2::new(230.0, 40.0), vec2::new(1.0, -0.25));
    with_hook(Hook::Flying(pos, dir.normalize())).tuned(HOOK_HOLD, hold)
}

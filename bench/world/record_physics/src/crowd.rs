//! Random characters in numbers from two to all of a scene.

use crate::scene::{SCENE, Scene};
use harness::draw::any_input;
use original::{State, hook_of};
use reference::Xorshift;
use tile_map::Map;
use tile_map::draw::{below, pair_within, pick, somewhere};

pub const HOOKS: u32 = 8;

/// Others are drawn at most this far from the one whose turn it is, in each coordinate.
const NEAR: f32 = 60.0;

const SPEEDS: [f32; 4] = [0.0, 1.0, 12.0, 60.0];

/// Anybody in or about the map, with any hook.
pub fn anybody(map: &Map, random: &mut Xorshift) -> State {
    let pos = somewhere(map, random);
    let speed = pick(random, &SPEEDS);
    let vel = pair_within(random, speed);
    let case = random.pattern() % HOOKS;
    let state = State {
        pos,
        vel,
        hook: hook_of(case, pos, vel, 0, 0),
        jumped_already: random.pattern().is_multiple_of(2),
        used_airjump: random.pattern().is_multiple_of(2),
        angle: random.within(3.2),
        direction: random.pattern() % 3,
    };
    with_hook(state, case, random)
}

/// The same with a hook of that case near it.
pub fn with_hook(state: State, case: u32, random: &mut Xorshift) -> State {
    let pos = state.pos + pair_within(random, 150.0);
    let dir = pair_within(random, 1.0).normalize();
    let (id, tick) = (random.pattern() % SCENE as u32, random.pattern() % 61);
    let hook = hook_of(case, pos, dir, id, tick);
    State { hook, ..state }
}

/// So many characters near one of them, whose turn it is.
pub fn crowd(map: &Map, count: usize, random: &mut Xorshift) -> Scene {
    let id = below(random, SCENE);
    let me = anybody(map, random);
    let mut scene = Scene::new(map, id, me).told(any_input(random));
    while scene.slots.iter().filter(|slot| slot.present).count() < count {
        let pos = me.pos + pair_within(random, NEAR);
        let other = anybody(map, random);
        scene = scene.with_other(below(random, SCENE), State { pos, ..other });
    }
    scene
}

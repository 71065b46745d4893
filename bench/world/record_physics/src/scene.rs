//! All that a tick or a move of one character depends on.

use harness::tunings::{AIR_FRICTION, GRAVITY, ORDINARY, TUNINGS};
use harness::{SEATS, Slot, Slots};
use libtw2_gamenet::snap_obj::PlayerInput;
use original::{Hook, State, vec2};
use tile_map::Map;

/// A line tells so many slots; beyond them nobody is.
pub const SCENE: usize = 16;

#[derive(Clone)]
pub struct Scene {
    pub map: Map,
    /// Whose turn it is.
    pub id: usize,
    pub tunings: [i32; TUNINGS],
    pub slots: Slots,
}

impl Scene {
    /// Alone, with the hook's button held. The others are absent, but where they would be met.
    pub fn new(map: &Map, id: usize, me: State) -> Scene {
        Scene::among_absent(map, id, me.pos).with(id, me)
    }

    /// The one whose turn it is has a seat beyond those that a line tells: it is nowhere,
    /// and as in a fresh world.
    pub fn beyond(map: &Map, id: usize) -> Scene {
        assert!(id >= SCENE);
        Scene::among_absent(map, id, vec2::default())
    }

    fn among_absent(map: &Map, id: usize, near: vec2) -> Scene {
        let absent = Slot {
            character: at(near + vec2::new(9.0, -7.0)).into(),
            ..Slot::absent()
        };
        let mut slots = [Slot::absent(); SEATS];
        slots[..SCENE].fill(absent);
        let scene = Scene {
            map: map.clone(),
            id,
            tunings: ORDINARY,
            slots,
        };
        scene.told(PlayerInput {
            target_x: 100,
            target_y: -40,
            hook: 1,
            ..PlayerInput::default()
        })
    }

    pub fn with(mut self, id: usize, state: State) -> Scene {
        assert!(id < SCENE);
        self.slots[id].present = true;
        self.slots[id].character = state.into();
        self
    }

    /// The same, but leaves the one whose turn it is alone.
    pub fn with_other(self, id: usize, state: State) -> Scene {
        if id == self.id {
            return self;
        }
        self.with(id, state)
    }

    pub fn tuned(mut self, index: usize, hundredths: i32) -> Scene {
        self.tunings[index] = hundredths;
        self
    }

    /// With no gravity and no friction in the air.
    pub fn without_air(self) -> Scene {
        self.tuned(GRAVITY, 0).tuned(AIR_FRICTION, 100)
    }

    pub fn told(mut self, input: PlayerInput) -> Scene {
        self.slots[self.id].input = input;
        self
    }

    pub fn me(&self) -> State {
        self.slots[self.id].character.into()
    }

    pub fn input(&self) -> PlayerInput {
        self.slots[self.id].input
    }
}

/// At rest.
pub fn at(pos: vec2) -> State {
    State {
        pos,
        vel: vec2::default(),
        hook: Hook::Idle,
        jumped_already: false,
        used_airjump: false,
        angle: 0.75,
        direction: 1,
    }
}

//! The seats of a world.

use libtw2_gamenet::snap_obj::PlayerInput;
use original::{Character, Hook, State, vec2};

pub const SEATS: usize = 64;

pub type Slots = [Slot; SEATS];

#[derive(Clone, Copy)]
pub struct Slot {
    pub present: bool,
    pub character: Character,
    pub input: PlayerInput,
    /// Whether it stood on the ground in its last tick.
    pub grounded: bool,
}

impl Slot {
    /// As every slot of a fresh world is, and one that was left.
    pub fn absent() -> Slot {
        Slot {
            present: false,
            character: Character::spawn(vec2::default()),
            input: PlayerInput::default(),
            grounded: false,
        }
    }

    pub fn joined(pos: vec2) -> Slot {
        Slot {
            present: true,
            character: Character::spawn(pos),
            input: PlayerInput::default(),
            grounded: false,
        }
    }

    /// A hook on that one is retracted.
    pub fn release(&mut self, held: u32) {
        let state = State::from(self.character);
        if matches!(state.hook, Hook::Grabbed(id, _) if id.0 == held) {
            let hook = Hook::Retracted;
            self.character = State { hook, ..state }.into();
        }
    }
}

/// As if that one had never been there. Whoever held it holds nobody from now on.
pub fn vacate(slots: &mut Slots, id: usize) {
    for slot in slots.iter_mut() {
        slot.release(id as u32);
    }
    slots[id] = Slot::absent();
}

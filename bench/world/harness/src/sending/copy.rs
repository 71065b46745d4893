//! A seat as it was last sent, stepped since then as if nobody else were there. The
//! sender and the screen keep and step their copies alike.

use crate::refusal::Refusal;
use crate::slot::{SEATS, Slot};
use crate::tunings::TUNINGS;
use crate::world::World;
use libtw2_gamenet::snap_obj::{CharacterCore, PlayerInput};
use original::{CORE_NUMBERS, Character, core_of};
use tile_map::Map;

/// By then a seat is sent whatever it does.
pub const MOST_STEPS: u32 = 150;

pub type Copies = [SeatCopy; SEATS];

#[derive(Clone, Copy)]
pub struct SeatCopy {
    /// Whether there is one.
    pub kept: bool,
    pub core: CharacterCore,
    pub input: PlayerInput,
    /// Whether its own small world has removed it.
    pub removed: bool,
    /// Whether the last step of its small world was refused as too far.
    pub refused: bool,
    /// The accepted steps since the last message, counted up to [`MOST_STEPS`].
    pub steps: u32,
}

impl SeatCopy {
    pub fn none() -> SeatCopy {
        SeatCopy {
            kept: false,
            ..SeatCopy::sent(core_of([0; CORE_NUMBERS]), PlayerInput::default())
        }
    }

    /// As a message has it.
    pub fn sent(core: CharacterCore, input: PlayerInput) -> SeatCopy {
        SeatCopy {
            kept: true,
            core,
            input,
            removed: false,
            refused: false,
            steps: 0,
        }
    }

    /// After one more accepted step of the world that it is a copy from.
    pub fn stepped(mut self, id: usize, map: &Map, tunings: [i32; TUNINGS]) -> SeatCopy {
        if !self.kept {
            return self;
        }
        if self.steps < MOST_STEPS {
            self.steps += 1;
        }
        self.refused = false;
        if !self.removed {
            self.step_alone(id, map, tunings);
        }
        self
    }

    /// In a world that holds that seat alone. Where this is refused its record stays.
    fn step_alone(&mut self, id: usize, map: &Map, tunings: [i32; TUNINGS]) {
        let mut alone = World::fresh();
        alone.tunings = tunings;
        alone.slots[id] = Slot {
            present: true,
            character: Character::from_net(&self.core),
            input: self.input,
            // Nobody asks for the mark, and no step depends on it.
            grounded: false,
        };
        match alone.step(map) {
            Ok(published) => {
                self.core = published.records[id].expect("present");
                self.removed = published.removed[id];
            }
            Err(refusal) => self.refused = refusal == Refusal::TooFar,
        }
    }
}

/// Every one, on either side.
pub fn step_all(copies: &mut Copies, map: &Map, tunings: [i32; TUNINGS]) {
    for (id, copy) in copies.iter_mut().enumerate() {
        *copy = copy.stepped(id, map, tunings);
    }
}

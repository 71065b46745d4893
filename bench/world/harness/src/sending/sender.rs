//! The server's side of the link.

use super::copy::{Copies, MOST_STEPS, SeatCopy, step_all};
use super::passed::Passed;
use crate::call::Call;
use crate::published::Published;
use crate::refusal::Refusal;
use crate::slot::SEATS;
use crate::world::World;
use libtw2_gamenet::snap_obj::CharacterCore;
use original::core_numbers;
use tile_map::Map;

#[derive(Clone)]
pub struct Sender {
    pub copies: Copies,
}

/// Of an accepted call.
#[derive(Clone)]
pub struct Sent {
    pub published: Published,
    /// In the order in which it has to arrive.
    pub passed: Vec<Passed>,
}

impl Sender {
    pub fn fresh() -> Sender {
        Sender {
            copies: [SeatCopy::none(); SEATS],
        }
    }

    /// Makes the call on the world. A refused one passes nothing along.
    pub fn call(&mut self, world: &mut World, map: &Map, call: Call) -> Result<Sent, Refusal> {
        let before = world.clone();
        let published = world.call(map, call)?;
        let passed = match call {
            Call::Join { .. } | Call::Input { .. } => Vec::new(),
            Call::Leave { id } => {
                self.drop_copy(id);
                vec![Passed::Leave { id }]
            }
            Call::Tune { index, hundredths } => vec![Passed::Tune { index, hundredths }],
            Call::Step => self.pass_step(&before, map, &published),
        };
        Ok(Sent { published, passed })
    }

    /// The mark, what surprises, and who is removed.
    fn pass_step(&mut self, before: &World, map: &Map, published: &Published) -> Vec<Passed> {
        step_all(&mut self.copies, map, before.tunings);
        let mut passed = vec![Passed::Mark];
        passed.extend(self.surprises(before, published));
        for id in published.removed_ids() {
            self.drop_copy(id);
            passed.push(Passed::Removal { id });
        }
        passed
    }

    /// By rising id; each renews the copy that it is sent for.
    fn surprises(&mut self, before: &World, published: &Published) -> Vec<Passed> {
        let mut messages = Vec::new();
        for (id, copy) in self.copies.iter_mut().enumerate() {
            let Some(core) = published.records[id] else {
                continue;
            };
            if copy.surprises(core) {
                let input = before.slots[id].input;
                *copy = SeatCopy::sent(core, input);
                let id = id as i32;
                messages.push(Passed::Message { id, core, input });
            }
        }
        messages
    }

    fn drop_copy(&mut self, id: i32) {
        self.copies[id as usize] = SeatCopy::none();
    }
}

impl SeatCopy {
    /// Whether the true record has to be sent, now that the copy has been stepped too.
    fn surprises(&self, core: CharacterCore) -> bool {
        // There is no copy from the join to the first accepted step after it.
        let first = !self.kept;
        let differs = core_numbers(self.core) != core_numbers(core);
        first || differs || self.refused || self.steps == MOST_STEPS
    }
}

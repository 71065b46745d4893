//! The other side of the link: it knows nothing but what is passed along, and the map.

use super::copy::{Copies, SeatCopy, step_all};
use super::passed::Passed;
use crate::refusal::Refusal;
use crate::slot::SEATS;
use crate::tunings::{ORDINARY, TUNINGS};
use crate::world::{seat, tuning_place};
use libtw2_gamenet::snap_obj::CharacterCore;
use tile_map::Map;

#[derive(Clone)]
pub struct Screen {
    pub copies: Copies,
    pub tunings: [i32; TUNINGS],
}

impl Screen {
    pub fn fresh() -> Screen {
        Screen {
            copies: [SeatCopy::none(); SEATS],
            tunings: ORDINARY,
        }
    }

    /// Refused for an id or an index that nothing has.
    pub fn receive(&mut self, map: &Map, passed: Passed) -> Result<(), Refusal> {
        match passed {
            Passed::Mark => step_all(&mut self.copies, map, self.tunings),
            Passed::Message { id, core, input } => {
                self.copies[seat(id)?] = SeatCopy::sent(core, input);
            }
            Passed::Removal { id } | Passed::Leave { id } => {
                self.copies[seat(id)?] = SeatCopy::none();
            }
            Passed::Tune { index, hundredths } => {
                self.tunings[tuning_place(index)?] = hundredths;
            }
        }
        Ok(())
    }

    /// The record that a seat is shown with.
    pub fn shown(&self, id: i32) -> Result<CharacterCore, Refusal> {
        let copy = self.copies[seat(id)?];
        Refusal::Absent.when(!copy.kept)?;
        Ok(copy.core)
    }
}

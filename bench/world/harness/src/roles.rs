//! Change request 8, 'referee, seat, board': what each may ask of a world. That a role does
//! not allow it comes before all other refusals.

use crate::call::{CALL_NUMBERS, Call};
use crate::published::Published;
use crate::refusal::Refusal;
use crate::world::World;
use original::{core_numbers, input_numbers};
use tile_map::Map;

/// The roles that are no seat's, as numbers; the number of a seat is its id.
pub const REFEREE: i32 = -1;
pub const BOARD: i32 = -2;

#[derive(Clone, Copy, Debug, Eq, PartialEq)]
pub enum Role {
    Referee,
    /// With its id, which may be one that no seat has.
    Seat(i32),
    Board,
}

/// A call, or a read.
#[derive(Clone, Copy)]
pub enum Ask {
    Call(Call),
    Record { id: i32 },
    FloorMark { id: i32 },
    StoredInput { id: i32 },
    Tuning { index: i32 },
}

/// What an ask is told that was not refused.
#[derive(Clone)]
pub enum Told {
    Published(Box<Published>),
    /// The numbers that were read.
    Read(Vec<i32>),
}

impl Role {
    /// None for a number that is no role.
    pub fn of(number: i32) -> Option<Role> {
        match number {
            REFEREE => Some(Role::Referee),
            BOARD => Some(Role::Board),
            0.. => Some(Role::Seat(number)),
            _ => None,
        }
    }

    pub fn may(self, ask: Ask) -> bool {
        match self {
            Role::Referee => true,
            Role::Seat(own) => matches!(ask, Ask::Call(Call::Input { id, .. }) if id == own),
            Role::Board => matches!(ask, Ask::Record { .. } | Ask::FloorMark { .. }),
        }
    }
}

/// Whether that role may. A call through a sender is one on its world, and allowed alike.
pub fn check_role(role: i32, ask: Ask) -> Result<(), Refusal> {
    let may = Role::of(role).is_some_and(|role| role.may(ask));
    Refusal::NotAllowed.when(!may)
}

impl Ask {
    /// Whom it is about, where it is about an id.
    pub fn named_id(self) -> Option<i32> {
        match self {
            Ask::Call(Call::Step | Call::Tune { .. }) | Ask::Tuning { .. } => None,
            Ask::Call(Call::Join { id, .. } | Call::Leave { id } | Call::Input { id, .. })
            | Ask::Record { id }
            | Ask::FloorMark { id }
            | Ask::StoredInput { id } => Some(id),
        }
    }

    /// Those of a call are its own; a read has a kind that no call has, and spare arguments
    /// are 0.
    pub fn numbers(self) -> [i32; CALL_NUMBERS] {
        let read = |kind, argument| [kind, argument, 0, 0, 0, 0, 0];
        match self {
            Ask::Call(call) => call.numbers(),
            Ask::Record { id } => read(6, id),
            Ask::FloorMark { id } => read(7, id),
            Ask::StoredInput { id } => read(8, id),
            Ask::Tuning { index } => read(9, index),
        }
    }
}

impl World {
    /// As the role of that number.
    pub fn ask(&mut self, map: &Map, role: i32, ask: Ask) -> Result<Told, Refusal> {
        check_role(role, ask)?;
        let numbers = match ask {
            Ask::Call(call) => return Ok(Told::Published(Box::new(self.call(map, call)?))),
            Ask::Record { id } => core_numbers(self.record(id)?).to_vec(),
            Ask::FloorMark { id } => vec![i32::from(self.floor_mark(id)?)],
            Ask::StoredInput { id } => input_numbers(self.stored_input(id)?).to_vec(),
            Ask::Tuning { index } => vec![self.tuning(index)?],
        };
        Ok(Told::Read(numbers))
    }
}

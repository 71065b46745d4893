//! One call that was made.

use crate::function::Function;
use compare_world::differs::{Differs, same};
use harness::Refusal;

/// With the harness. The fences are looked at after every call.
#[derive(Clone, Copy, Debug, Eq, PartialEq)]
pub enum Compared {
    Whole,
    /// libtw2 stops on such numbers.
    Stopped,
}

#[derive(Clone, Copy, Debug, Eq, PartialEq)]
pub struct Played {
    pub function: Function,
    pub answer: u32,
    pub compared: Compared,
}

impl Played {
    pub fn of(function: Function, answer: u32, compared: Compared) -> Played {
        Played {
            function,
            answer,
            compared,
        }
    }
}

/// Whether the answers are the same, and if it was accepted what was told.
pub fn same_answer<T>(answer: u32, expected: Result<T, Refusal>) -> Result<Option<T>, Differs> {
    let number = expected
        .as_ref()
        .err()
        .map_or(0, |refusal| refusal.number());
    same("answer", answer, number)?;
    Ok(expected.ok())
}

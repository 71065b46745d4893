//! The five calls as values, and as the numbers that stand for them in texts and vectors.

use crate::refusal::Refusal;
use libtw2_gamenet::snap_obj::PlayerInput;
use original::{input_numbers, input_of};

/// The code and six arguments.
pub const CALL_NUMBERS: usize = 7;

#[derive(Clone, Copy)]
pub enum Call {
    Join {
        id: i32,
        x: i32,
        y: i32,
    },
    Leave {
        id: i32,
    },
    Input {
        id: i32,
        input: PlayerInput,
    },
    Step,
    /// Of the hold it is whole steps.
    Tune {
        index: i32,
        hundredths: i32,
    },
}

impl Call {
    /// Spare arguments are 0.
    pub fn numbers(self) -> [i32; CALL_NUMBERS] {
        match self {
            Call::Join { id, x, y } => [1, id, x, y, 0, 0, 0],
            Call::Leave { id } => [2, id, 0, 0, 0, 0, 0],
            Call::Input { id, input } => {
                let [direction, target_x, target_y, jump, hook] = input_numbers(input);
                [3, id, direction, target_x, target_y, jump, hook]
            }
            Call::Step => [4, 0, 0, 0, 0, 0, 0],
            Call::Tune { index, hundredths } => [5, index, hundredths, 0, 0, 0, 0],
        }
    }

    pub fn from_numbers(numbers: [i32; CALL_NUMBERS]) -> Result<Call, Refusal> {
        Ok(match numbers {
            [1, id, x, y, 0, 0, 0] => Call::Join { id, x, y },
            [2, id, 0, 0, 0, 0, 0] => Call::Leave { id },
            [3, id, input @ ..] => Call::Input {
                id,
                input: input_of(input),
            },
            [4, 0, 0, 0, 0, 0, 0] => Call::Step,
            [5, index, hundredths, 0, 0, 0, 0] => Call::Tune { index, hundredths },
            _ => return Err(Refusal::Text),
        })
    }
}

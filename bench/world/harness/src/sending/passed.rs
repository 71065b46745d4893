//! What is passed along to the screens, each as the numbers of the port's C interface.

use libtw2_gamenet::snap_obj::{CharacterCore, PlayerInput};
use original::{CORE_NUMBERS, INPUT_NUMBERS, core_numbers, core_of, input_numbers, input_of};

/// The kind, the id, the record and the input; nothing that is passed along has more.
pub const MESSAGE_NUMBERS: usize = 2 + CORE_NUMBERS + INPUT_NUMBERS;

const MARK: i32 = 0;
const MESSAGE: i32 = 1;
const REMOVAL: i32 = 2;
const LEAVE: i32 = 3;
const TUNE: i32 = 4;

#[derive(Clone, Copy)]
pub enum Passed {
    /// A step was accepted.
    Mark,
    /// The record that the step took of a seat, and the input that it used.
    Message {
        id: i32,
        core: CharacterCore,
        input: PlayerInput,
    },
    /// By spikes.
    Removal {
        id: i32,
    },
    Leave {
        id: i32,
    },
    Tune {
        index: i32,
        hundredths: i32,
    },
}

impl Passed {
    pub fn numbers(self) -> Vec<i32> {
        match self {
            Passed::Mark => vec![MARK],
            Passed::Message { id, core, input } => {
                let mut numbers = vec![MESSAGE, id];
                numbers.extend(core_numbers(core));
                numbers.extend(input_numbers(input));
                numbers
            }
            Passed::Removal { id } => vec![REMOVAL, id],
            Passed::Leave { id } => vec![LEAVE, id],
            Passed::Tune { index, hundredths } => vec![TUNE, index, hundredths],
        }
    }

    /// The one that numbers begin with, where they begin with a whole one.
    pub fn first_of(numbers: &[i32]) -> Option<Passed> {
        let (&kind, rest) = numbers.split_first()?;
        Some(match (kind, rest) {
            (MARK, _) => Passed::Mark,
            (MESSAGE, &[id, ref rest @ ..]) => message(id, rest)?,
            (REMOVAL, &[id, ..]) => Passed::Removal { id },
            (LEAVE, &[id, ..]) => Passed::Leave { id },
            (TUNE, &[index, hundredths, ..]) => Passed::Tune { index, hundredths },
            _ => return None,
        })
    }
}

fn message(id: i32, numbers: &[i32]) -> Option<Passed> {
    let (core, rest) = numbers.split_first_chunk::<CORE_NUMBERS>()?;
    let input = rest.first_chunk::<INPUT_NUMBERS>()?;
    Some(Passed::Message {
        id,
        core: core_of(*core),
        input: input_of(*input),
    })
}

/// One after another.
pub fn all_numbers(passed: &[Passed]) -> Vec<i32> {
    passed.iter().flat_map(|passed| passed.numbers()).collect()
}

//! What is passed along to the screens.

use crate::character_id::CharacterId;
use crate::ffi;
use crate::send_buffers::PASSED_NUMBERS;
use crate::snap_obj::{CORE_NUMBERS, CharacterCore, INPUT_NUMBERS, PlayerInput};
use alloc::vec;
use alloc::vec::Vec;
use core::fmt::{Debug, Formatter, Result as Written};

/// One thing that a [`Sender`](crate::Sender) passes along.
#[derive(Clone, Copy, Debug, Eq, Hash, PartialEq)]
pub enum Passed {
    /// A step was accepted.
    Mark,
    /// A seat that is not where the screens have it: the record that the step took, and
    /// the input that it used.
    Message {
        /// Whose.
        id: CharacterId,
        /// The record that the step took.
        core: CharacterCore,
        /// The input that the step used.
        input: PlayerInput,
    },
    /// The step has removed this id.
    Removal {
        /// Whose.
        id: CharacterId,
    },
    /// This id has left.
    Leave {
        /// Whose.
        id: CharacterId,
    },
    /// A tuning was set, in hundredths; [`Tuning::HookHold`](crate::Tuning::HookHold) in steps.
    Tune {
        /// Which, as [`Tuning`](crate::Tuning) has them.
        index: i32,
        /// What it is set to.
        hundredths: i32,
    },
}

const MARK: i32 = ffi::PASSED_MARK;
const MESSAGE: i32 = ffi::PASSED_MESSAGE;
const REMOVAL: i32 = ffi::PASSED_REMOVAL;
const LEAVE: i32 = ffi::PASSED_LEAVE;
const TUNE: i32 = ffi::PASSED_TUNE;

impl Passed {
    /// The kind, then what it is about, as [`send_buffers`](crate::send_buffers) has them.
    ///
    /// ```
    /// use ponguriena::Passed;
    ///
    /// assert_eq!(Passed::Mark.numbers(), [0]);
    /// assert_eq!(Passed::Tune { index: 12, hundredths: 50 }.numbers(), [4, 12, 50]);
    /// ```
    pub fn numbers(self) -> Vec<i32> {
        match self {
            Passed::Mark => vec![MARK],
            Passed::Message { id, core, input } => [
                &[MESSAGE, id.0.cast_signed()],
                &core.numbers()[..],
                &input.numbers(),
            ]
            .concat(),
            Passed::Removal { id } => vec![REMOVAL, id.0.cast_signed()],
            Passed::Leave { id } => vec![LEAVE, id.0.cast_signed()],
            Passed::Tune { index, hundredths } => vec![TUNE, index, hundredths],
        }
    }

    /// The one that numbers begin with, and the numbers behind it; none where they begin
    /// with no whole one.
    ///
    /// ```
    /// use ponguriena::{CharacterId, Passed};
    ///
    /// let numbers = [3, 7, 0];
    /// assert_eq!(Passed::first_of(&numbers), Some((Passed::Leave { id: CharacterId(7) }, &[0][..])));
    /// assert_eq!(Passed::first_of(&numbers[..1]), None);
    /// ```
    pub fn first_of(numbers: &[i32]) -> Option<(Passed, &[i32])> {
        let (&kind, rest) = numbers.split_first()?;
        Some(match (kind, rest) {
            (MARK, rest) => (Passed::Mark, rest),
            (MESSAGE, &[id, ref rest @ ..]) => return message_of(CharacterId::of_number(id), rest),
            (REMOVAL, &[id, ref rest @ ..]) => {
                let id = CharacterId::of_number(id);
                (Passed::Removal { id }, rest)
            }
            (LEAVE, &[id, ref rest @ ..]) => {
                let id = CharacterId::of_number(id);
                (Passed::Leave { id }, rest)
            }
            (TUNE, &[index, hundredths, ref rest @ ..]) => {
                (Passed::Tune { index, hundredths }, rest)
            }
            _ => return None,
        })
    }
}

fn message_of(id: CharacterId, numbers: &[i32]) -> Option<(Passed, &[i32])> {
    let (core, rest) = numbers.split_first_chunk::<CORE_NUMBERS>()?;
    let (input, rest) = rest.split_first_chunk::<INPUT_NUMBERS>()?;
    let message = Passed::Message {
        id,
        core: CharacterCore::from_numbers(*core),
        input: PlayerInput::from_numbers(*input),
    };
    Some((message, rest))
}

/// All that one call passes along, in the order in which it has to arrive.
///
/// ```
/// # use ponguriena::{CharacterId, Map, Passed, Refusal, Role, Sender, World};
/// # let map = Map { width: 1, height: 1, tiles: &[0] };
/// # let (mut world, mut sender) = (World::fresh(), Sender::fresh());
/// world.join(Role::Referee, &map, CharacterId(3), 5, 5)?;
/// let (records, passed) = sender.step(Role::Referee, &mut world, &map)?;
/// let [Passed::Mark, Passed::Message { id: CharacterId(3), core, .. }] = passed.iter().collect::<Vec<_>>()[..]
/// else {
///     panic!("{passed:?}");
/// };
/// assert_eq!(Some((CharacterId(3), core)), records.iter().next());
/// assert_eq!(passed.numbers().len(), 1 + 22);
/// # Ok::<(), Refusal>(())
/// ```
#[derive(Clone)]
pub struct PassedAlong {
    numbers: [i32; PASSED_NUMBERS],
    count: usize,
}

impl PassedAlong {
    /// That of the call that writes it and answers how many numbers it has written.
    pub(crate) fn by<E>(
        call: impl FnOnce(&mut [i32]) -> Result<usize, E>,
    ) -> Result<PassedAlong, E> {
        let mut numbers = [0; PASSED_NUMBERS];
        let count = call(&mut numbers)?;
        Ok(PassedAlong { numbers, count })
    }

    /// As they go over the link; [`Screen::receive`](crate::Screen::receive) takes them.
    pub fn numbers(&self) -> &[i32] {
        &self.numbers[..self.count]
    }

    /// One thing after another.
    pub fn iter(&self) -> PassedIter<'_> {
        PassedIter {
            numbers: self.numbers(),
        }
    }
}

impl Debug for PassedAlong {
    fn fmt(&self, formatter: &mut Formatter<'_>) -> Written {
        formatter.debug_list().entries(self.iter()).finish()
    }
}

impl PartialEq for PassedAlong {
    fn eq(&self, other: &PassedAlong) -> bool {
        self.numbers() == other.numbers()
    }
}

impl Eq for PassedAlong {}

/// Goes through [`PassedAlong`].
#[derive(Clone, Debug)]
pub struct PassedIter<'a> {
    numbers: &'a [i32],
}

impl Iterator for PassedIter<'_> {
    type Item = Passed;

    fn next(&mut self) -> Option<Passed> {
        let (passed, rest) = Passed::first_of(self.numbers)?;
        self.numbers = rest;
        Some(passed)
    }
}

impl<'a> IntoIterator for &'a PassedAlong {
    type Item = Passed;
    type IntoIter = PassedIter<'a>;

    fn into_iter(self) -> PassedIter<'a> {
        self.iter()
    }
}

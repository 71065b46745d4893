//! How could she get there?

use crate::buffers::{SEARCH_STEPS, WAY_NUMBERS};
use crate::snap_obj::PlayerInput;

/// What a [`Way`] has in one step.
#[derive(Clone, Copy, Debug, Default, Eq, Hash, PartialEq)]
pub struct Buttons {
    /// -1 left, 0 none, 1 right.
    pub direction: i32,
    /// Whether the button is held: 1 or 0.
    pub jump: i32,
}

/// Inputs that lead somebody to a place in one, two or three steps.
#[derive(Clone, Copy, Debug, Eq, Hash, PartialEq)]
pub struct Way {
    buttons: [Buttons; SEARCH_STEPS],
    count: usize,
}

impl Buttons {
    /// With the hook let go, and the aim of what is stored.
    pub fn input(self, stored: PlayerInput) -> PlayerInput {
        PlayerInput {
            direction: self.direction,
            jump: self.jump,
            hook: 0,
            ..stored
        }
    }
}

impl Way {
    /// One after another.
    pub fn steps(&self) -> &[Buttons] {
        &self.buttons[..self.count]
    }

    /// As a search has written it; none where no list leads there.
    pub(crate) fn of_numbers(numbers: [i32; WAY_NUMBERS]) -> Option<Way> {
        let count = usize::try_from(numbers[0]).ok()?.min(SEARCH_STEPS);
        let mut buttons = [Buttons::default(); SEARCH_STEPS];
        for (buttons, numbers) in buttons.iter_mut().zip(numbers[1..].chunks_exact(2)) {
            *buttons = Buttons {
                direction: numbers[0],
                jump: numbers[1],
            };
        }
        (count > 0).then_some(Way { buttons, count })
    }
}

//! What goes into a character and what it publishes, as the protocol has it.

use crate::ffi;

/// The numbers of a [`CharacterCore`].
pub const CORE_NUMBERS: usize = ffi::RECORD;

/// The numbers of a [`PlayerInput`].
pub const INPUT_NUMBERS: usize = ffi::INPUT;

/// What a player wants. Every number is taken.
#[derive(Clone, Copy, Debug, Default, Eq, Hash, PartialEq)]
pub struct PlayerInput {
    /// Below 0 left, above 0 right.
    pub direction: i32,
    /// The aim, as seen from the character.
    pub target_x: i32,
    /// Downwards, as every y.
    pub target_y: i32,
    /// Whether the button is held: not 0.
    pub jump: i32,
    /// Whether the button is held: not 0.
    pub hook: i32,
}

/// The record of a character.
#[derive(Clone, Copy, Debug, Default, Eq, Hash, PartialEq)]
pub struct CharacterCore {
    /// 0.
    pub tick: i32,
    /// To the right; a tile is 32 wide.
    pub x: i32,
    /// Downwards.
    pub y: i32,
    /// In 1/256.
    pub vel_x: i32,
    /// In 1/256.
    pub vel_y: i32,
    /// Of the aim, in 1/256 radian.
    pub angle: i32,
    /// -1 left, 0 none, 1 right.
    pub direction: i32,
    /// Bit 0: the button is held. Bit 1: the jump in the air is used.
    pub jumped: i32,
    /// Whom the hook holds, or -1.
    pub hooked_player: i32,
    /// -1 retracted, 0 idle, 1 to 3 retracting, 4 flying, 5 holds.
    pub hook_state: i32,
    /// How long the hook has held somebody.
    pub hook_tick: i32,
    /// Where the hook is, or 0.
    pub hook_x: i32,
    /// Where the hook is, or 0.
    pub hook_y: i32,
    /// In 1/256.
    pub hook_dx: i32,
    /// In 1/256.
    pub hook_dy: i32,
}

impl PlayerInput {
    /// In the order of the fields.
    pub fn numbers(self) -> [i32; INPUT_NUMBERS] {
        [
            self.direction,
            self.target_x,
            self.target_y,
            self.jump,
            self.hook,
        ]
    }

    /// In the order of the fields.
    pub fn from_numbers(numbers: [i32; INPUT_NUMBERS]) -> PlayerInput {
        let [direction, target_x, target_y, jump, hook] = numbers;
        PlayerInput {
            direction,
            target_x,
            target_y,
            jump,
            hook,
        }
    }
}

impl CharacterCore {
    /// In the order of the fields.
    pub fn numbers(self) -> [i32; CORE_NUMBERS] {
        [
            self.tick,
            self.x,
            self.y,
            self.vel_x,
            self.vel_y,
            self.angle,
            self.direction,
            self.jumped,
            self.hooked_player,
            self.hook_state,
            self.hook_tick,
            self.hook_x,
            self.hook_y,
            self.hook_dx,
            self.hook_dy,
        ]
    }

    /// In the order of the fields.
    pub fn from_numbers(numbers: [i32; CORE_NUMBERS]) -> CharacterCore {
        let [
            tick,
            x,
            y,
            vel_x,
            vel_y,
            angle,
            direction,
            jumped,
            hook @ ..,
        ] = numbers;
        let [
            hooked_player,
            hook_state,
            hook_tick,
            hook_x,
            hook_y,
            hook_dx,
            hook_dy,
        ] = hook;
        CharacterCore {
            tick,
            x,
            y,
            vel_x,
            vel_y,
            angle,
            direction,
            jumped,
            hooked_player,
            hook_state,
            hook_tick,
            hook_x,
            hook_y,
            hook_dx,
            hook_dy,
        }
    }
}

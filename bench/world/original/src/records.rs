//! What goes in and out of a character, as plain numbers in the order of the fields.

use libtw2_gamenet::snap_obj::{CharacterCore, PlayerInput, Tick};

pub const CORE_NUMBERS: usize = 15;
pub const INPUT_NUMBERS: usize = 5;

pub fn core_numbers(core: CharacterCore) -> [i32; CORE_NUMBERS] {
    [
        core.tick,
        core.x,
        core.y,
        core.vel_x,
        core.vel_y,
        core.angle,
        core.direction,
        core.jumped,
        core.hooked_player,
        core.hook_state,
        core.hook_tick.0,
        core.hook_x,
        core.hook_y,
        core.hook_dx,
        core.hook_dy,
    ]
}

pub fn input_numbers(input: PlayerInput) -> [i32; INPUT_NUMBERS] {
    [
        input.direction,
        input.target_x,
        input.target_y,
        input.jump,
        input.hook,
    ]
}

pub fn core_of(numbers: [i32; CORE_NUMBERS]) -> CharacterCore {
    let [
        tick,
        x,
        y,
        vel_x,
        vel_y,
        angle,
        direction,
        jumped,
        hook @ ..,
    ] = numbers;
    let [
        hooked_player,
        hook_state,
        hook_tick,
        hook_x,
        hook_y,
        hook_dx,
        hook_dy,
    ] = hook;
    CharacterCore {
        tick,
        x,
        y,
        vel_x,
        vel_y,
        angle,
        direction,
        jumped,
        hooked_player,
        hook_state,
        hook_tick: Tick(hook_tick),
        hook_x,
        hook_y,
        hook_dx,
        hook_dy,
    }
}

pub fn input_of(numbers: [i32; INPUT_NUMBERS]) -> PlayerInput {
    let [direction, target_x, target_y, jump, hook] = numbers;
    PlayerInput {
        direction,
        target_x,
        target_y,
        jump,
        hook,
    }
}

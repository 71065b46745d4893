//! What players are told.

use libtw2_gamenet::snap_obj::PlayerInput;

/// Fires at a point beside the player, and holds.
pub fn hook(target_x: i32, target_y: i32) -> PlayerInput {
    PlayerInput {
        target_x,
        target_y,
        hook: 1,
        ..PlayerInput::default()
    }
}

pub fn walk(direction: i32) -> PlayerInput {
    PlayerInput {
        direction,
        ..PlayerInput::default()
    }
}

pub fn jump(jump: i32) -> PlayerInput {
    PlayerInput {
        jump,
        ..PlayerInput::default()
    }
}

pub fn nothing() -> PlayerInput {
    PlayerInput::default()
}

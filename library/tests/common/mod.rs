//! What the tests of worlds share: maps of 3 by 3, and an input.

use ponguriena::{Map, PlayerInput};

pub const OPEN: Map = Map {
    width: 3,
    height: 3,
    tiles: &[0; 9],
};

/// Its sides are not those of its tiles.
pub const NO_MAP: Map = Map { width: 2, ..OPEN };

/// A hook to the right.
pub const HOOK: PlayerInput = PlayerInput {
    direction: 0,
    target_x: 1,
    target_y: 0,
    jump: 0,
    hook: 1,
};

//! The turns that a walk is due, measured before it by document 01's formulas.

use original::vec2;
use reference::{round_to_i32, trunc_to_i32};

/// A walk of more turns is refused.
pub const MOST_TURNS: i64 = 65536;

/// Of `check_line`.
pub fn line_turns(from: vec2, to: vec2) -> i64 {
    // This 1 is part of a float sum, so it may round up.
    i64::from(trunc_to_i32(vec2::distance(from, to) + 1.0)).max(0)
}

/// Of `move_box`.
pub fn box_turns(vel: vec2) -> i64 {
    if vel.length() > 0.00001 {
        i64::from(round_to_i32(vel.length())) + 1
    } else {
        0
    }
}

/// Of the player walk of `move_`, where player collision isn't 0.
pub fn player_turns(from: vec2, to: vec2) -> i64 {
    i64::from(trunc_to_i32(vec2::distance(from, to))) + 1
}

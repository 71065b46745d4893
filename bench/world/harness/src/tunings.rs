//! The nineteen tunings: those of libtw2 in hundredths, and change request 13's hold behind them.

use crate::refusal::Refusal;
use libtw2_gamenet::msg::game::{SvTuneParams, TuneParam};
use original::MAX_HOOK_GRAB_TIME;

pub const TUNINGS: usize = 19;

/// In whole steps. A world may hold for no longer than libtw2, and is fresh as libtw2 is.
const SHORTEST_HOLD: i32 = 1;
const LONGEST_HOLD: i32 = MAX_HOOK_GRAB_TIME as i32;

/// Those of the game.
pub const ORDINARY: [i32; TUNINGS] = [
    1000,
    200,
    50,
    1320,
    1200,
    500,
    150,
    95,
    38000,
    8000,
    300,
    1500,
    50,
    55000,
    200_000,
    140,
    100,
    100,
    LONGEST_HOLD,
];

pub const GROUND_CONTROL_SPEED: usize = 0;
pub const GROUND_CONTROL_ACCEL: usize = 1;
pub const AIR_JUMP_IMPULSE: usize = 4;
pub const AIR_CONTROL_SPEED: usize = 5;
pub const AIR_CONTROL_ACCEL: usize = 6;
pub const AIR_FRICTION: usize = 7;
pub const HOOK_LENGTH: usize = 8;
pub const HOOK_FIRE_SPEED: usize = 9;
pub const HOOK_DRAG_ACCEL: usize = 10;
pub const HOOK_DRAG_SPEED: usize = 11;
pub const GRAVITY: usize = 12;
pub const RAMP_START: usize = 13;
pub const RAMP_RANGE: usize = 14;
pub const RAMP_CURVATURE: usize = 15;
pub const PLAYER_COLLISION: usize = 16;
pub const PLAYER_HOOKING: usize = 17;
pub const HOOK_HOLD: usize = 18;

/// Whether the tuning at that place may be set to that number.
pub fn check_tuning(place: usize, number: i32) -> Result<(), Refusal> {
    let is_hold = (SHORTEST_HOLD..=LONGEST_HOLD).contains(&number);
    Refusal::Hold.when(place == HOOK_HOLD && !is_hold)
}

/// The tuning at that place as it is read: a hold that no call has set is the nearest that one
/// may set.
pub fn read_tuning(tunings: &[i32; TUNINGS], place: usize) -> i32 {
    let number = tunings[place];
    if place == HOOK_HOLD {
        return number.clamp(SHORTEST_HOLD, LONGEST_HOLD);
    }
    number
}

/// As a step takes them.
pub struct Tuning {
    /// For `tick` and `move_`.
    pub params: SvTuneParams,
    pub hold: u32,
}

pub fn tuning_of(tunings: [i32; TUNINGS]) -> Tuning {
    Tuning {
        params: tune_params(tunings),
        hold: read_tuning(&tunings, HOOK_HOLD).cast_unsigned(),
    }
}

fn tune_params(tunings: [i32; TUNINGS]) -> SvTuneParams {
    let mut values = tunings.into_iter().map(TuneParam);
    let mut next = || values.next().expect("a tuning");
    SvTuneParams {
        ground_control_speed: next(),
        ground_control_accel: next(),
        ground_friction: next(),
        ground_jump_impulse: next(),
        air_jump_impulse: next(),
        air_control_speed: next(),
        air_control_accel: next(),
        air_friction: next(),
        hook_length: next(),
        hook_fire_speed: next(),
        hook_drag_accel: next(),
        hook_drag_speed: next(),
        gravity: next(),
        velramp_start: next(),
        velramp_range: next(),
        velramp_curvature: next(),
        player_collision: next(),
        player_hooking: next(),
    }
}

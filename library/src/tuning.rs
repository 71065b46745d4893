//! The tunings by name.

use crate::ffi;

/// The settings of a world by their indexes. All but the last are in hundredths of what the game
/// counts in, and may be any number.
#[derive(Clone, Copy, Debug, Eq, Hash, PartialEq)]
#[repr(i32)]
pub enum Tuning {
    /// How fast one runs on the ground.
    GroundControlSpeed = ffi::TUNING_GROUND_CONTROL_SPEED,
    /// How fast that is reached.
    GroundControlAccel = ffi::TUNING_GROUND_CONTROL_ACCEL,
    /// What is left of a speed on the ground where nothing is pressed.
    GroundFriction = ffi::TUNING_GROUND_FRICTION,
    /// The speed of a jump from the ground.
    GroundJumpImpulse = ffi::TUNING_GROUND_JUMP_IMPULSE,
    /// The speed of a jump in the air.
    AirJumpImpulse = ffi::TUNING_AIR_JUMP_IMPULSE,
    /// How fast one moves in the air.
    AirControlSpeed = ffi::TUNING_AIR_CONTROL_SPEED,
    /// How fast that is reached.
    AirControlAccel = ffi::TUNING_AIR_CONTROL_ACCEL,
    /// What is left of a speed in the air where nothing is pressed.
    AirFriction = ffi::TUNING_AIR_FRICTION,
    /// How far a hook flies.
    HookLength = ffi::TUNING_HOOK_LENGTH,
    /// How far it flies in a step.
    HookFireSpeed = ffi::TUNING_HOOK_FIRE_SPEED,
    /// How hard it drags.
    HookDragAccel = ffi::TUNING_HOOK_DRAG_ACCEL,
    /// Up to which speed it drags.
    HookDragSpeed = ffi::TUNING_HOOK_DRAG_SPEED,
    /// What a step adds to the speed downwards.
    Gravity = ffi::TUNING_GRAVITY,
    /// From which speed on the ramp slows down.
    VelrampStart = ffi::TUNING_VELRAMP_START,
    /// Over which range of speeds.
    VelrampRange = ffi::TUNING_VELRAMP_RANGE,
    /// How much it slows down.
    VelrampCurvature = ffi::TUNING_VELRAMP_CURVATURE,
    /// Off at 0.
    PlayerCollision = ffi::TUNING_PLAYER_COLLISION,
    /// Off at 0.
    PlayerHooking = ffi::TUNING_PLAYER_HOOKING,
    /// For how many steps a hook holds a player, from [`SHORTEST_HOLD`] to [`LONGEST_HOLD`]. A new
    /// one counts at once and alters nothing by itself: a hook that has held for as long or longer
    /// is retracted in the next step in which its button is still held.
    HookHold = ffi::TUNING_HOOK_HOLD,
}

impl From<Tuning> for i32 {
    fn from(tuning: Tuning) -> i32 {
        tuning as i32
    }
}

/// The least [`Tuning::HookHold`], in steps.
pub const SHORTEST_HOLD: i32 = 1;

/// The most [`Tuning::HookHold`], in steps, which is that of a fresh world.
pub const LONGEST_HOLD: i32 = ffi::LONGEST_HOLD as i32;

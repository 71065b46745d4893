//! The tunings that are tried.

use harness::tunings::{
    AIR_CONTROL_ACCEL, AIR_CONTROL_SPEED, GRAVITY, GROUND_CONTROL_ACCEL, GROUND_CONTROL_SPEED,
    ORDINARY, PLAYER_COLLISION, RAMP_CURVATURE, RAMP_RANGE, RAMP_START, TUNINGS,
};

pub type Tunings = [i32; TUNINGS];

/// The game's own but for these.
pub fn with(changes: &[(usize, i32)]) -> Tunings {
    let mut tunings = ORDINARY;
    for &(index, hundredths) in changes {
        tunings[index] = hundredths;
    }
    tunings
}

/// In the air as on the ground, in units a step.
pub fn running(speed: i32) -> Tunings {
    with(&[
        (GROUND_CONTROL_SPEED, 100 * speed),
        (AIR_CONTROL_SPEED, 100 * speed),
        (GROUND_CONTROL_ACCEL, 100 * speed),
        (AIR_CONTROL_ACCEL, 100 * speed),
    ])
}

/// Nobody is in anybody's way.
pub fn apart() -> Tunings {
    with(&[(PLAYER_COLLISION, 0)])
}

/// From half of nothing to three times as much.
pub fn eight_gravities() -> [Tunings; 8] {
    [0, 10, 25, 50, 75, 100, 150, -50].map(|gravity| with(&[(GRAVITY, gravity)]))
}

/// A step is refused as soon as somebody is faster than this, in hundredths.
pub fn too_far_from(speed: i32) -> Tunings {
    // The ramp counts units in a second, of which a step is the fiftieth part.
    with(&[
        (RAMP_START, 50 * speed),
        (RAMP_RANGE, 1),
        (RAMP_CURVATURE, 1),
    ])
}

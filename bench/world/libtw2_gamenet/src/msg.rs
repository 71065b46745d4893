//! The one message that `world` reads.

pub mod game {
    /// Hundredths.
    #[derive(Clone, Copy)]
    pub struct TuneParam(pub i32);

    impl TuneParam {
        pub fn to_float(self) -> f32 {
            self.0 as f32 / 100.0
        }
    }

    #[derive(Clone, Copy)]
    pub struct SvTuneParams {
        pub ground_control_speed: TuneParam,
        pub ground_control_accel: TuneParam,
        pub ground_friction: TuneParam,
        pub ground_jump_impulse: TuneParam,
        pub air_jump_impulse: TuneParam,
        pub air_control_speed: TuneParam,
        pub air_control_accel: TuneParam,
        pub air_friction: TuneParam,
        pub hook_length: TuneParam,
        pub hook_fire_speed: TuneParam,
        pub hook_drag_accel: TuneParam,
        pub hook_drag_speed: TuneParam,
        pub gravity: TuneParam,
        pub velramp_start: TuneParam,
        pub velramp_range: TuneParam,
        pub velramp_curvature: TuneParam,
        pub player_collision: TuneParam,
        pub player_hooking: TuneParam,
    }
}

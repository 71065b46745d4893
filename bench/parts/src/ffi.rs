//! The C interface of the Rattle crate `ponguriena_parts`, as tools/c_interface makes it.

// Each pointer is followed by the length of what it points to, in elements. What a call may
// write must not overlap what else it is lent. Any numbers may stand there.
unsafe extern "C" {
    pub safe fn ponguriena_root(x: f32) -> f32;
    pub safe fn ponguriena_round_to_i32(x: f32) -> i32;
    pub safe fn ponguriena_trunc_to_i32(x: f32) -> i32;
    pub safe fn ponguriena_i32_to_f32(n: i32) -> f32;
    pub safe fn ponguriena_hundredths_to_f32(n: i32) -> f32;
    pub safe fn ponguriena_quantize(x: f32) -> f32;
    pub safe fn ponguriena_to_256ths(v: f32) -> i32;
    pub safe fn ponguriena_from_256ths(n: i32) -> f32;
    pub safe fn ponguriena_quantize_256ths(v: f32) -> f32;
    pub safe fn ponguriena_net_angle(x: i32, y: i32) -> i32;
    pub safe fn ponguriena_scan_angle(x: i32, y: i32, read: &mut u32) -> i32;
    pub safe fn ponguriena_velocity_ramp(value: f32, start: i32, range: i32, curvature: i32) -> f32;
    pub fn ponguriena_move_box(
        width: u32,
        height: u32,
        tiles: *const u8,
        tiles_length: usize,
        pos_x: &mut f32,
        pos_y: &mut f32,
        vel_x: &mut f32,
        vel_y: &mut f32,
        box_x: f32,
        box_y: f32,
    ) -> u32;
    pub fn ponguriena_check_line(
        width: u32,
        height: u32,
        tiles: *const u8,
        tiles_length: usize,
        from_x: f32,
        from_y: f32,
        to_x: f32,
        to_y: f32,
        point_x: &mut f32,
        point_y: &mut f32,
        tile: &mut u32,
    ) -> u32;
    pub fn ponguriena_check_point(
        width: u32,
        height: u32,
        tiles: *const u8,
        tiles_length: usize,
        x: f32,
        y: f32,
        tile: &mut u32,
    ) -> u32;
}

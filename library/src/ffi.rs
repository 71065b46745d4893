//! The C interface of the Rattle crate `ponguriena`, as tools/c_interface makes it.

pub const BAD_MAP: u32 = 1;
pub const BAD_ID: u32 = 2;
pub const BAD_TUNING: u32 = 3;
pub const OUT_OF_REACH: u32 = 4;
pub const NOT_CLEAR: u32 = 5;
pub const PRESENT: u32 = 7;
pub const ABSENT: u32 = 8;
pub const TOO_FAR: u32 = 9;
pub const BYTES_END: u32 = 11;
pub const BAD_BYTES: u32 = 12;
pub const NOT_ALLOWED: u32 = 13;
pub const BAD_AREA: u32 = 14;
pub const BAD_TRIAL: u32 = 15;
pub const BAD_HOLD: u32 = 16;
pub const BAD_LENGTH: u32 = 17;
pub const LAYOUT: u32 = 1;
pub const SEATS: usize = 64;
pub const TUNINGS: usize = 19;
pub const RECORD: usize = 15;
pub const INPUT: usize = 5;
pub const SEAT: usize = 22;
pub const WORLD: usize = 1427;
pub const PUBLISHED: usize = 16;
pub const RECORDS: usize = 1024;
pub const PACKED: usize = 75;
pub const SEARCH_STEPS: usize = 3;
pub const WAY: usize = 7;
pub const COPY: usize = 24;
pub const SENDER: usize = 1536;
pub const SCREEN: usize = 1555;
pub const MESSAGE: usize = 22;
pub const PASSED: usize = 2838;
pub const TRIAL_TUNINGS: usize = 8;
pub const TRIAL_STEPS: i32 = 3000;
pub const TRIAL_JOIN: usize = 3;
pub const TRIAL_TARGET: usize = 2;
pub const TRIAL_NEAREST: usize = 3;
pub const TRIAL_ROW: usize = 193;
pub const LONGEST_HOLD: u32 = 60;
pub const REFEREE: i32 = -1;
pub const BOARD: i32 = -2;
pub const PASSED_MARK: i32 = 0;
pub const PASSED_MESSAGE: i32 = 1;
pub const PASSED_REMOVAL: i32 = 2;
pub const PASSED_LEAVE: i32 = 3;
pub const PASSED_TUNE: i32 = 4;
pub const TUNING_GROUND_CONTROL_SPEED: i32 = 0;
pub const TUNING_GROUND_CONTROL_ACCEL: i32 = 1;
pub const TUNING_GROUND_FRICTION: i32 = 2;
pub const TUNING_GROUND_JUMP_IMPULSE: i32 = 3;
pub const TUNING_AIR_JUMP_IMPULSE: i32 = 4;
pub const TUNING_AIR_CONTROL_SPEED: i32 = 5;
pub const TUNING_AIR_CONTROL_ACCEL: i32 = 6;
pub const TUNING_AIR_FRICTION: i32 = 7;
pub const TUNING_HOOK_LENGTH: i32 = 8;
pub const TUNING_HOOK_FIRE_SPEED: i32 = 9;
pub const TUNING_HOOK_DRAG_ACCEL: i32 = 10;
pub const TUNING_HOOK_DRAG_SPEED: i32 = 11;
pub const TUNING_GRAVITY: i32 = 12;
pub const TUNING_VELRAMP_START: i32 = 13;
pub const TUNING_VELRAMP_RANGE: i32 = 14;
pub const TUNING_VELRAMP_CURVATURE: i32 = 15;
pub const TUNING_PLAYER_COLLISION: i32 = 16;
pub const TUNING_PLAYER_HOOKING: i32 = 17;
pub const TUNING_HOOK_HOLD: i32 = 18;
pub const HOOK_RETRACTED: i32 = -1;
pub const HOOK_IDLE: i32 = 0;
pub const HOOK_RETRACTING0: i32 = 1;
pub const HOOK_RETRACTING1: i32 = 2;
pub const HOOK_RETRACTING2: i32 = 3;
pub const HOOK_FLYING: i32 = 4;
pub const HOOK_ATTACHED_GRABBED: i32 = 5;

// Each pointer is followed by the length of what it points to, in elements. What a call may
// write must not overlap what else it is lent. Any numbers may stand there.
unsafe extern "C" {
    pub safe fn ponguriena_aim(target_x: i32, target_y: i32, entries_read: &mut u32) -> i32;
    pub fn ponguriena_area_build(
        width: u32,
        height: u32,
        tiles: *const u8,
        tiles_length: usize,
        totals: *mut u32,
        totals_length: usize,
    ) -> u32;
    pub fn ponguriena_area_count(
        width: u32,
        height: u32,
        tiles: *const u8,
        tiles_length: usize,
        totals: *const u32,
        totals_length: usize,
        left: i32,
        top: i32,
        columns: i32,
        rows: i32,
        count: &mut u32,
    ) -> u32;
    pub fn ponguriena_area_change(
        width: u32,
        height: u32,
        tiles: *mut u8,
        tiles_length: usize,
        totals: *mut u32,
        totals_length: usize,
        column: i32,
        row: i32,
        byte: u8,
    ) -> u32;
    pub fn ponguriena_fresh(world: *mut i32, world_length: usize) -> u32;
    pub fn ponguriena_join(
        role: i32,
        world: *mut i32,
        world_length: usize,
        width: u32,
        height: u32,
        tiles: *const u8,
        tiles_length: usize,
        id: i32,
        x: i32,
        y: i32,
    ) -> u32;
    pub fn ponguriena_leave(role: i32, world: *mut i32, world_length: usize, id: i32) -> u32;
    pub fn ponguriena_input(
        role: i32,
        world: *mut i32,
        world_length: usize,
        id: i32,
        direction: i32,
        target_x: i32,
        target_y: i32,
        jump: i32,
        hook: i32,
    ) -> u32;
    pub fn ponguriena_tune(
        role: i32,
        world: *mut i32,
        world_length: usize,
        index: i32,
        value: i32,
    ) -> u32;
    pub fn ponguriena_step(
        role: i32,
        world: *mut i32,
        world_length: usize,
        width: u32,
        height: u32,
        tiles: *const u8,
        tiles_length: usize,
        records: *mut i32,
        records_length: usize,
        removed: *mut i32,
        removed_length: usize,
        count: &mut usize,
    ) -> u32;
    pub safe fn ponguriena_layout() -> u32;
    pub fn ponguriena_pack(
        record: *const i32,
        record_length: usize,
        bytes: *mut u8,
        bytes_length: usize,
        count: &mut usize,
    ) -> u32;
    pub fn ponguriena_unpack(
        bytes: *const u8,
        bytes_length: usize,
        record: *mut i32,
        record_length: usize,
        used: &mut usize,
    ) -> u32;
    pub fn ponguriena_record(
        role: i32,
        world: *const i32,
        world_length: usize,
        id: i32,
        record: *mut i32,
        record_length: usize,
    ) -> u32;
    pub fn ponguriena_player_input(
        role: i32,
        world: *const i32,
        world_length: usize,
        id: i32,
        input: *mut i32,
        input_length: usize,
    ) -> u32;
    pub fn ponguriena_tuning(
        role: i32,
        world: *const i32,
        world_length: usize,
        index: i32,
        value: &mut i32,
    ) -> u32;
    pub fn ponguriena_floor_mark(
        role: i32,
        world: *const i32,
        world_length: usize,
        id: i32,
        mark: &mut i32,
    ) -> u32;
    pub fn ponguriena_search(
        role: i32,
        world: *const i32,
        world_length: usize,
        width: u32,
        height: u32,
        tiles: *const u8,
        tiles_length: usize,
        id: i32,
        x: i32,
        y: i32,
        way: *mut i32,
        way_length: usize,
    ) -> u32;
    pub fn ponguriena_sender_fresh(sender: *mut i32, sender_length: usize) -> u32;
    pub fn ponguriena_send_leave(
        role: i32,
        world: *mut i32,
        world_length: usize,
        sender: *mut i32,
        sender_length: usize,
        id: i32,
        passed: *mut i32,
        passed_length: usize,
        count: &mut usize,
    ) -> u32;
    pub fn ponguriena_send_tune(
        role: i32,
        world: *mut i32,
        world_length: usize,
        sender: *mut i32,
        sender_length: usize,
        index: i32,
        value: i32,
        passed: *mut i32,
        passed_length: usize,
        count: &mut usize,
    ) -> u32;
    pub fn ponguriena_send_step(
        role: i32,
        world: *mut i32,
        world_length: usize,
        sender: *mut i32,
        sender_length: usize,
        width: u32,
        height: u32,
        tiles: *const u8,
        tiles_length: usize,
        records: *mut i32,
        records_length: usize,
        removed: *mut i32,
        removed_length: usize,
        removed_count: &mut usize,
        passed: *mut i32,
        passed_length: usize,
        count: &mut usize,
    ) -> u32;
    pub fn ponguriena_screen_fresh(screen: *mut i32, screen_length: usize) -> u32;
    pub fn ponguriena_receive(
        screen: *mut i32,
        screen_length: usize,
        width: u32,
        height: u32,
        tiles: *const u8,
        tiles_length: usize,
        passed: *const i32,
        passed_length: usize,
        used: &mut usize,
    ) -> u32;
    pub fn ponguriena_shown(
        screen: *const i32,
        screen_length: usize,
        id: i32,
        record: *mut i32,
        record_length: usize,
    ) -> u32;
    pub fn ponguriena_trial(
        width: u32,
        height: u32,
        tiles: *const u8,
        tiles_length: usize,
        joins: *const i32,
        joins_length: usize,
        targets: *const i32,
        targets_length: usize,
        tunings: *const i32,
        tunings_length: usize,
        steps: i32,
        result: *mut i32,
        result_length: usize,
    ) -> u32;
}

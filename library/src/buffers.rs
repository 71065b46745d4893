//! The calls on a world that the caller keeps as numbers and lends to each call.
//!
//! A world is [`WORLD_NUMBERS`] numbers: the tunings, then for each seat its
//! presence, 1, its record, its input and its floor mark, or zeros where nobody is.
//! Every such list of numbers is taken for a world: who is absent is as in a fresh one
//! whatever stands there, a hook's tick below 0 counts as 0, every floor mark but 0 as true,
//! and a [hold](crate::Tuning::HookHold) outside its limits as the nearest. A call writes the
//! numbers that it changes and no other; a refused one leaves every buffer as it was. A buffer
//! of another length is refused with [`Refusal::BadLength`].
//!
//! A call on a world names its role as a number, that of a [`Role`](crate::Role): -1 is the
//! referee, -2 a board, and a seat is its id. Any other number may do nothing. What the role
//! does not allow is refused with [`Refusal::NotAllowed`] before all else. The server decides
//! who calls: an id that comes from a message unchecked may be -1.
//!
//! ```
//! use ponguriena::{Map, Role, buffers};
//!
//! let referee = Role::Referee.number();
//! let map = Map { width: 3, height: 3, tiles: &[0; 9] };
//! let mut world = [0; buffers::WORLD_NUMBERS];
//! let mut records = [0; buffers::RECORDS_NUMBERS];
//! let mut removed = [0; buffers::SEATS];
//! buffers::fresh(&mut world)?;
//! buffers::join(referee, &mut world, &map, 0, 48, 48)?;
//! let count = buffers::step(referee, &mut world, &map, &mut records, &mut removed)?;
//! assert_eq!(records[..5], [1, 0, 48, 49, 0]);
//! assert_eq!(count, 0);
//! # Ok::<(), ponguriena::Refusal>(())
//! ```

use crate::ffi;
use crate::map::Map;
use crate::refusal::Refusal;
use crate::snap_obj::PlayerInput;

/// The seats of a world, and the numbers for whom a step removes. Ids are 0 up to one
/// less.
pub const SEATS: usize = ffi::SEATS;

/// The tunings of a world, by the indexes of [`Tuning`](crate::Tuning).
pub const TUNINGS: usize = ffi::TUNINGS;

/// A seat's presence, record, input and floor mark.
pub const SEAT_NUMBERS: usize = ffi::SEAT;

/// A world.
pub const WORLD_NUMBERS: usize = ffi::WORLD;

/// A seat's presence and record.
pub const PUBLISHED_NUMBERS: usize = ffi::PUBLISHED;

/// The most steps of a way that [`search`] tells.
pub const SEARCH_STEPS: usize = ffi::SEARCH_STEPS;

/// How many steps a way has, then direction and jump of each, with zeros behind them.
pub const WAY_NUMBERS: usize = ffi::WAY;

/// What a step publishes.
pub const RECORDS_NUMBERS: usize = ffi::RECORDS;

/// Makes the world a fresh one: nobody present, the tunings of the game.
#[inline]
pub fn fresh(world: &mut [i32]) -> Result<(), Refusal> {
    // SAFETY: the pointer and the length are those of one slice.
    Refusal::of_answer(unsafe { ffi::ponguriena_fresh(world.as_mut_ptr(), world.len()) })
}

/// The id joins at a place; its input is all 0.
#[inline]
pub fn join(
    role: i32,
    world: &mut [i32],
    map: &Map<'_>,
    id: i32,
    x: i32,
    y: i32,
) -> Result<(), Refusal> {
    // SAFETY: each pointer and the length after it are those of one slice.
    Refusal::of_answer(unsafe {
        ffi::ponguriena_join(
            role,
            world.as_mut_ptr(),
            world.len(),
            map.width,
            map.height,
            map.tiles.as_ptr(),
            map.tiles.len(),
            id,
            x,
            y,
        )
    })
}

/// The id is absent from now on. Every hook that holds it is retracted.
#[inline]
pub fn leave(role: i32, world: &mut [i32], id: i32) -> Result<(), Refusal> {
    // SAFETY: the pointer and the length are those of one slice.
    Refusal::of_answer(unsafe { ffi::ponguriena_leave(role, world.as_mut_ptr(), world.len(), id) })
}

/// What the id wants in every step from now on. The seat of this id may tell it too.
#[inline]
pub fn input(role: i32, world: &mut [i32], id: i32, input: PlayerInput) -> Result<(), Refusal> {
    // SAFETY: the pointer and the length are those of one slice.
    Refusal::of_answer(unsafe {
        ffi::ponguriena_input(
            role,
            world.as_mut_ptr(),
            world.len(),
            id,
            input.direction,
            input.target_x,
            input.target_y,
            input.jump,
            input.hook,
        )
    })
}

/// Sets a tuning.
#[inline]
pub fn tune(role: i32, world: &mut [i32], index: i32, value: i32) -> Result<(), Refusal> {
    // SAFETY: the pointer and the length are those of one slice.
    let answer =
        unsafe { ffi::ponguriena_tune(role, world.as_mut_ptr(), world.len(), index, value) };
    Refusal::of_answer(answer)
}

/// Everybody present ticks, then moves. `records` gets for each seat its presence
/// and its record. Then whoever has a corner on a deadly tile is removed as by
/// [`leave`]: `removed`, of [`SEATS`] numbers, gets these ids by rising id and zeros
/// behind them. Answers how many they are.
#[inline]
pub fn step(
    role: i32,
    world: &mut [i32],
    map: &Map<'_>,
    records: &mut [i32],
    removed: &mut [i32],
) -> Result<usize, Refusal> {
    let mut count = 0;
    // SAFETY: each pointer and the length after it are those of one slice; those that
    // are written are lent for writing, so they do not overlap.
    let answer = unsafe {
        ffi::ponguriena_step(
            role,
            world.as_mut_ptr(),
            world.len(),
            map.width,
            map.height,
            map.tiles.as_ptr(),
            map.tiles.len(),
            records.as_mut_ptr(),
            records.len(),
            removed.as_mut_ptr(),
            removed.len(),
            &mut count,
        )
    };
    Refusal::of_answer(answer)?;
    Ok(count)
}

/// Writes the record of an id that is present, as its seat now stands: [`CORE_NUMBERS`](crate::CORE_NUMBERS)
/// numbers. A board may read it too.
#[inline]
pub fn record(role: i32, world: &[i32], id: i32, record: &mut [i32]) -> Result<(), Refusal> {
    // SAFETY: each pointer and the length after it are those of one slice; the one
    // that is written is lent for writing, so they do not overlap.
    Refusal::of_answer(unsafe {
        let (numbers, length) = (record.as_mut_ptr(), record.len());
        ffi::ponguriena_record(role, world.as_ptr(), world.len(), id, numbers, length)
    })
}

/// Writes the input of an id that is present: [`INPUT_NUMBERS`](crate::INPUT_NUMBERS) numbers.
#[inline]
pub fn player_input(role: i32, world: &[i32], id: i32, input: &mut [i32]) -> Result<(), Refusal> {
    // SAFETY: as for `record`.
    Refusal::of_answer(unsafe {
        let (numbers, length) = (input.as_mut_ptr(), input.len());
        ffi::ponguriena_player_input(role, world.as_ptr(), world.len(), id, numbers, length)
    })
}

/// Writes a tuning; a hold as it counts.
#[inline]
pub fn tuning(role: i32, world: &[i32], index: i32, value: &mut i32) -> Result<(), Refusal> {
    // SAFETY: the pointer and the length are those of one slice.
    let answer = unsafe { ffi::ponguriena_tuning(role, world.as_ptr(), world.len(), index, value) };
    Refusal::of_answer(answer)
}

/// Writes the floor mark of an id that is present: 1 if it stood on the ground when
/// the last step since its join began, else 0. A board may read it too.
#[inline]
pub fn floor_mark(role: i32, world: &[i32], id: i32, mark: &mut i32) -> Result<(), Refusal> {
    // SAFETY: the pointer and the length are those of one slice.
    Refusal::of_answer(unsafe {
        ffi::ponguriena_floor_mark(role, world.as_ptr(), world.len(), id, mark)
    })
}

/// Writes the first list of inputs that leads an id to a place, of [`WAY_NUMBERS`] numbers, or
/// zeros where none does; [`World::search`](crate::World::search) says which lists are tried.
#[inline]
pub fn search(
    role: i32,
    world: &[i32],
    map: &Map<'_>,
    id: i32,
    x: i32,
    y: i32,
    way: &mut [i32],
) -> Result<(), Refusal> {
    // SAFETY: as for `record`.
    Refusal::of_answer(unsafe {
        ffi::ponguriena_search(
            role,
            world.as_ptr(),
            world.len(),
            map.width,
            map.height,
            map.tiles.as_ptr(),
            map.tiles.len(),
            id,
            x,
            y,
            way.as_mut_ptr(),
            way.len(),
        )
    })
}

//! What goes to the screens, as calls on numbers that the caller keeps: a sender beside
//! its world, and a screen wherever it is. [`Sender`](crate::Sender) and
//! [`Screen`](crate::Screen) are the same in safe types, and say what it is for.
//!
//! A copy of a seat is [`COPY_NUMBERS`] numbers: 1, its record, its input, whether its own
//! small world has removed it, whether the last step there was refused with 9, and the
//! accepted steps since its last message, 150 at most; or zeros where there is none. A
//! sender is a copy for each seat, a screen its tunings and then the same. Any such
//! numbers are taken: every number but 0 sets a flag.
//!
//! What is passed along is numbers too, one thing behind another, and each begins with
//! its kind: a mark is `0`, a message `1`, its id, its record and its input, a removal `2`
//! and its id, a leave `3` and its id, a tuning `4`, its index and its value. A call
//! answers how many numbers it has written; those behind them stay as they were.
//!
//! A call on a world names its role as in [`buffers`](crate::buffers), and the calls here are
//! the referee's. A buffer of a wrong length is refused with [`Refusal::BadLength`] before all
//! but the role. A refused call leaves every buffer as it was. To join and to give an input
//! passes nothing along: [`join`](crate::buffers::join) and [`input`](crate::buffers::input)
//! are for worlds with a sender too.
//!
//! ```
//! use ponguriena::{Map, Role, buffers, send_buffers};
//!
//! let referee = Role::Referee.number();
//! let map = Map { width: 3, height: 3, tiles: &[0; 9] };
//! let mut world = [0; buffers::WORLD_NUMBERS];
//! let mut sender = [0; send_buffers::SENDER_NUMBERS];
//! let mut passed = [0; send_buffers::PASSED_NUMBERS];
//! buffers::fresh(&mut world)?;
//! send_buffers::fresh_sender(&mut sender)?;
//! let count = send_buffers::tune(referee, &mut world, &mut sender, 12, 0, &mut passed)?;
//! assert_eq!(passed[..count], [4, 12, 0]);
//!
//! let mut screen = [0; send_buffers::SCREEN_NUMBERS];
//! send_buffers::fresh_screen(&mut screen)?;
//! assert_eq!(send_buffers::receive(&mut screen, &map, &passed[..count]), Ok(3));
//! assert_eq!(screen[12], 0);
//! # Ok::<(), ponguriena::Refusal>(())
//! ```

use crate::ffi;
use crate::map::Map;
use crate::refusal::Refusal;

/// Whether there is a copy, its record, its input, two flags and its steps.
pub const COPY_NUMBERS: usize = ffi::COPY;

/// A sender.
pub const SENDER_NUMBERS: usize = ffi::SENDER;

/// A screen.
pub const SCREEN_NUMBERS: usize = ffi::SCREEN;

/// A message, the longest of what is passed along.
pub const MESSAGE_NUMBERS: usize = ffi::MESSAGE;

/// Room for what any call passes along: at most a mark, and a message and a removal for
/// each seat.
pub const PASSED_NUMBERS: usize = ffi::PASSED;

/// How much an accepted step has written.
#[derive(Clone, Copy, Debug, Eq, PartialEq)]
pub struct Counts {
    /// Of those removed.
    pub removed: usize,
    /// Of the numbers that are passed along.
    pub passed: usize,
}

/// Makes the sender one that has sent nothing.
#[inline]
pub fn fresh_sender(sender: &mut [i32]) -> Result<(), Refusal> {
    // SAFETY: the pointer and the length are those of one slice.
    Refusal::of_answer(unsafe { ffi::ponguriena_sender_fresh(sender.as_mut_ptr(), sender.len()) })
}

/// Makes the screen one that nothing was passed to: no copies, the tunings of the game.
#[inline]
pub fn fresh_screen(screen: &mut [i32]) -> Result<(), Refusal> {
    // SAFETY: the pointer and the length are those of one slice.
    Refusal::of_answer(unsafe { ffi::ponguriena_screen_fresh(screen.as_mut_ptr(), screen.len()) })
}

/// [`leave`](crate::buffers::leave), passed along. Answers how many numbers are.
#[inline]
pub fn leave(
    role: i32,
    world: &mut [i32],
    sender: &mut [i32],
    id: i32,
    passed: &mut [i32],
) -> Result<usize, Refusal> {
    let mut count = 0;
    // SAFETY: each pointer and the length after it are those of one slice; those that
    // are written are lent for writing, so they do not overlap.
    let answer = unsafe {
        ffi::ponguriena_send_leave(
            role,
            world.as_mut_ptr(),
            world.len(),
            sender.as_mut_ptr(),
            sender.len(),
            id,
            passed.as_mut_ptr(),
            passed.len(),
            &mut count,
        )
    };
    Refusal::of_answer(answer)?;
    Ok(count)
}

/// [`tune`](crate::buffers::tune), passed along. Answers how many numbers are.
#[inline]
pub fn tune(
    role: i32,
    world: &mut [i32],
    sender: &mut [i32],
    index: i32,
    value: i32,
    passed: &mut [i32],
) -> Result<usize, Refusal> {
    let mut count = 0;
    // SAFETY: as for `leave`.
    let answer = unsafe {
        ffi::ponguriena_send_tune(
            role,
            world.as_mut_ptr(),
            world.len(),
            sender.as_mut_ptr(),
            sender.len(),
            index,
            value,
            passed.as_mut_ptr(),
            passed.len(),
            &mut count,
        )
    };
    Refusal::of_answer(answer)?;
    Ok(count)
}

/// [`step`](crate::buffers::step), which writes `records` and `removed`, passed along: a
/// mark, the messages that are due by rising id, and the removals.
#[inline]
pub fn step(
    role: i32,
    world: &mut [i32],
    sender: &mut [i32],
    map: &Map<'_>,
    records: &mut [i32],
    removed: &mut [i32],
    passed: &mut [i32],
) -> Result<Counts, Refusal> {
    let [mut removed_count, mut passed_count] = [0; 2];
    // SAFETY: as for `leave`.
    let answer = unsafe {
        ffi::ponguriena_send_step(
            role,
            world.as_mut_ptr(),
            world.len(),
            sender.as_mut_ptr(),
            sender.len(),
            map.width,
            map.height,
            map.tiles.as_ptr(),
            map.tiles.len(),
            records.as_mut_ptr(),
            records.len(),
            removed.as_mut_ptr(),
            removed.len(),
            &mut removed_count,
            passed.as_mut_ptr(),
            passed.len(),
            &mut passed_count,
        )
    };
    Refusal::of_answer(answer)?;
    Ok(Counts {
        removed: removed_count,
        passed: passed_count,
    })
}

/// The screen takes the first thing of those that were passed along. Answers how many
/// numbers it has; the next one begins behind them. Refused with
/// [`Refusal::BadLength`] where the numbers begin with no whole thing. Where the map is
/// none a mark moves nobody.
#[inline]
pub fn receive(screen: &mut [i32], map: &Map<'_>, passed: &[i32]) -> Result<usize, Refusal> {
    let mut used = 0;
    // SAFETY: as for `leave`.
    let answer = unsafe {
        ffi::ponguriena_receive(
            screen.as_mut_ptr(),
            screen.len(),
            map.width,
            map.height,
            map.tiles.as_ptr(),
            map.tiles.len(),
            passed.as_ptr(),
            passed.len(),
            &mut used,
        )
    };
    Refusal::of_answer(answer)?;
    Ok(used)
}

/// Writes the record that the screen has of an id: [`CORE_NUMBERS`](crate::CORE_NUMBERS) numbers.
#[inline]
pub fn shown(screen: &[i32], id: i32, record: &mut [i32]) -> Result<(), Refusal> {
    // SAFETY: as for `leave`.
    Refusal::of_answer(unsafe {
        let (numbers, length) = (record.as_mut_ptr(), record.len());
        ffi::ponguriena_shown(screen.as_ptr(), screen.len(), id, numbers, length)
    })
}

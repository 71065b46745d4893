//! Copies as the numbers of the port's C interface: whether there is one, its record, its
//! input, whether it is removed, whether refused, and its steps. A sender is one copy for
//! each seat; a screen has its tunings before them.

use super::copy::{Copies, SeatCopy};
use super::screen::Screen;
use super::sender::Sender;
use crate::slot::SEATS;
use crate::tunings::TUNINGS;
use original::{CORE_NUMBERS, INPUT_NUMBERS, core_numbers, core_of, input_numbers, input_of};
use std::array::from_fn;

pub const COPY_NUMBERS: usize = 1 + CORE_NUMBERS + INPUT_NUMBERS + 3;
pub const SENDER_NUMBERS: usize = SEATS * COPY_NUMBERS;
pub const SCREEN_NUMBERS: usize = TUNINGS + SENDER_NUMBERS;

const AFTER_CORE: usize = 1 + CORE_NUMBERS;
const AFTER_INPUT: usize = AFTER_CORE + INPUT_NUMBERS;

pub fn encoded_sender(sender: &Sender) -> [i32; SENDER_NUMBERS] {
    encoded_copies(&sender.copies)
}

pub fn encoded_screen(screen: &Screen) -> [i32; SCREEN_NUMBERS] {
    let mut numbers = [0; SCREEN_NUMBERS];
    let (tunings, copies) = numbers.split_at_mut(TUNINGS);
    tunings.copy_from_slice(&screen.tunings);
    copies.copy_from_slice(&encoded_copies(&screen.copies));
    numbers
}

/// Any numbers are a sender.
pub fn decoded_sender(numbers: &[i32; SENDER_NUMBERS]) -> Sender {
    Sender {
        copies: decoded_copies(numbers),
    }
}

/// Any numbers are a screen.
pub fn decoded_screen(numbers: &[i32; SCREEN_NUMBERS]) -> Screen {
    let (tunings, copies) = numbers.split_at(TUNINGS);
    Screen {
        tunings: from_fn(|index| tunings[index]),
        copies: decoded_copies(copies),
    }
}

fn encoded_copies(copies: &Copies) -> [i32; SENDER_NUMBERS] {
    let mut numbers = [0; SENDER_NUMBERS];
    for (seat, copy) in numbers.chunks_mut(COPY_NUMBERS).zip(copies) {
        seat[0] = i32::from(copy.kept);
        seat[1..AFTER_CORE].copy_from_slice(&core_numbers(copy.core));
        seat[AFTER_CORE..AFTER_INPUT].copy_from_slice(&input_numbers(copy.input));
        seat[AFTER_INPUT] = i32::from(copy.removed);
        seat[AFTER_INPUT + 1] = i32::from(copy.refused);
        seat[AFTER_INPUT + 2] = copy.steps.cast_signed();
    }
    numbers
}

fn decoded_copies(numbers: &[i32]) -> Copies {
    from_fn(|id| decoded_copy(&numbers[id * COPY_NUMBERS..]))
}

/// Every number but 0 sets a flag; where there is no copy the rest stays as it is.
fn decoded_copy(numbers: &[i32]) -> SeatCopy {
    SeatCopy {
        kept: numbers[0] != 0,
        core: core_of(from_fn(|place| numbers[1 + place])),
        input: input_of(from_fn(|place| numbers[AFTER_CORE + place])),
        removed: numbers[AFTER_INPUT] != 0,
        refused: numbers[AFTER_INPUT + 1] != 0,
        steps: numbers[AFTER_INPUT + 2].cast_unsigned(),
    }
}

//! What an accepted call writes into the numbers of a world: what it changes, and nothing
//! else.

use crate::call::Call;
use crate::encoding::{SEAT_NUMBERS, WORLD_NUMBERS, seat_numbers};
use crate::published::Published;
use crate::tunings::TUNINGS;
use crate::world::World;
use original::{CORE_NUMBERS, INPUT_NUMBERS, core_numbers, input_numbers};

/// Where a seat has its record, whom its hook holds, the hook's state, its input and its
/// floor mark.
const RECORD: usize = 1;
const HOOKED_PLAYER: usize = RECORD + 8;
const HOOK_STATE: usize = HOOKED_PLAYER + 1;
const INPUT: usize = RECORD + CORE_NUMBERS;
const MARK: usize = INPUT + INPUT_NUMBERS;

/// Of a hook that holds somebody, or a tile.
const GRABBED: i32 = 5;

/// A record from the hooked player on, where the hook is retracted.
const RETRACTED: [i32; INPUT - HOOKED_PLAYER] = [-1, -1, 0, 0, 0, 0, 0];

/// The numbers after a call that has left the world `next`, and told `told` if it is a step.
pub fn rewritten(
    mut numbers: [i32; WORLD_NUMBERS],
    call: Call,
    next: &World,
    told: &Published,
) -> [i32; WORLD_NUMBERS] {
    let (tunings, seats) = numbers.split_at_mut(TUNINGS);
    match call {
        Call::Join { id, .. } => put(seats, id, 0, &seat_numbers(&next.slots[id as usize])),
        Call::Leave { id } => remove(seats, id),
        Call::Input { id, input } => put(seats, id, INPUT, &input_numbers(input)),
        Call::Step => take_step(seats, next, told),
        Call::Tune { index, hundredths } => tunings[index as usize] = hundredths,
    }
    numbers
}

fn take_step(seats: &mut [i32], next: &World, told: &Published) {
    for (id, slot) in (0..).zip(&next.slots) {
        if let Some(core) = told.records[id as usize] {
            put(seats, id, RECORD, &core_numbers(core));
            put(seats, id, MARK, &[i32::from(slot.grounded)]);
        }
    }
    told.removed_ids().for_each(|id| remove(seats, id));
}

/// Zeros for who is gone; whoever held it has a retracted hook.
fn remove(seats: &mut [i32], id: i32) {
    put(seats, id, 0, &[0; SEAT_NUMBERS]);
    for seat in seats.chunks_mut(SEAT_NUMBERS) {
        if seat[0] != 0 && seat[HOOK_STATE] == GRABBED && seat[HOOKED_PLAYER] == id {
            seat[HOOKED_PLAYER..INPUT].copy_from_slice(&RETRACTED);
        }
    }
}

fn put(seats: &mut [i32], id: i32, at: usize, row: &[i32]) {
    let at = id as usize * SEAT_NUMBERS + at;
    seats[at..at + row.len()].copy_from_slice(row);
}

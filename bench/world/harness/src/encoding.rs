//! A world as the numbers of the port's C interface: the tunings, then for each
//! seat its presence, its record, its input and its floor mark, or zeros where
//! nobody is.

use crate::published::Published;
use crate::slot::{SEATS, Slot};
use crate::tunings::TUNINGS;
use crate::world::World;
use libtw2_gamenet::snap_obj::Tick;
use original::{
    CORE_NUMBERS, Character, INPUT_NUMBERS, core_numbers, core_of, input_numbers, input_of,
};

pub const SEAT_NUMBERS: usize = 1 + CORE_NUMBERS + INPUT_NUMBERS + 1;
const PUBLISHED_NUMBERS: usize = 1 + CORE_NUMBERS;

pub const WORLD_NUMBERS: usize = TUNINGS + SEATS * SEAT_NUMBERS;
pub const RECORDS_NUMBERS: usize = SEATS * PUBLISHED_NUMBERS;

pub fn encoded(world: &World) -> [i32; WORLD_NUMBERS] {
    let mut numbers = world.tunings.to_vec();
    numbers.extend(world.slots.iter().flat_map(seat_numbers));
    numbers.try_into().expect("as many numbers")
}

pub fn seat_numbers(slot: &Slot) -> [i32; SEAT_NUMBERS] {
    if !slot.present {
        return [0; SEAT_NUMBERS];
    }
    let mut numbers = vec![1];
    numbers.extend(core_numbers(slot.character.to_net()));
    numbers.extend(input_numbers(slot.input));
    numbers.push(i32::from(slot.grounded));
    numbers.try_into().expect("as many numbers")
}

/// Any numbers are a world.
pub fn decoded(numbers: &[i32; WORLD_NUMBERS]) -> World {
    let mut world = World::fresh();
    let (tunings, seats) = numbers.split_at(TUNINGS);
    world.tunings.copy_from_slice(tunings);
    for (slot, seat) in world.slots.iter_mut().zip(seats.chunks(SEAT_NUMBERS)) {
        *slot = decoded_slot(seat);
    }
    world
}

/// Who is absent is as in a fresh world, whatever stands there.
fn decoded_slot(seat: &[i32]) -> Slot {
    if seat[0] == 0 {
        return Slot::absent();
    }
    let (core, input) = seat[1..].split_at(CORE_NUMBERS);
    let (input, mark) = input.split_at(INPUT_NUMBERS);
    let mut core = core_of(core.try_into().expect("a record"));
    // No hook holds for less, and a tick below 0 would have no record.
    core.hook_tick = Tick(core.hook_tick.0.max(0));
    Slot {
        present: true,
        character: Character::from_net(&core),
        input: input_of(input.try_into().expect("an input")),
        grounded: mark[0] != 0,
    }
}

/// For each seat its presence and its record.
pub fn encoded_records(published: &Published) -> [i32; RECORDS_NUMBERS] {
    let mut numbers = [0; RECORDS_NUMBERS];
    for (seat, core) in numbers.chunks_mut(PUBLISHED_NUMBERS).zip(published.records) {
        if let Some(core) = core {
            seat[0] = 1;
            seat[1..].copy_from_slice(&core_numbers(core));
        }
    }
    numbers
}

/// Who was removed, by rising id and with zeros behind, and how many count.
pub fn encoded_removed(published: &Published) -> ([i32; SEATS], usize) {
    let ids: Vec<i32> = published.removed_ids().collect();
    let mut numbers = [0; SEATS];
    numbers[..ids.len()].copy_from_slice(&ids);
    (numbers, ids.len())
}

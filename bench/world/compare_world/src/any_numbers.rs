//! Numbers that are lent as a world, as a sender or as a screen, though no call may have
//! left them.

use harness::SEATS;
use harness::draw::any_hold;
use harness::encoding::{WORLD_NUMBERS, encoded};
use harness::tunings::{HOOK_HOLD, ORDINARY, TUNINGS};
use reference::Xorshift;
use tile_map::draw::{below, pick};

pub type Numbers = [i32; WORLD_NUMBERS];

/// Among them ids about the sixteenth and about the last.
const ENDS: [i32; 11] = [
    0,
    1,
    -1,
    5,
    15,
    16,
    SEATS as i32 - 1,
    SEATS as i32,
    i32::MIN,
    i32::MAX,
    i32::MAX - 64,
];

/// One number in so many of a world is another one.
const DAMAGED: [usize; 3] = [3, 10, 60];

/// With the game's tunings half of the times, since others refuse most steps; of these every
/// other with a hold that may be none.
pub fn drawn(world: &harness::World, random: &mut Xorshift) -> Numbers {
    let mut numbers = drawn_near(encoded(world), random);
    if below(random, 2) == 0 {
        numbers[..TUNINGS].copy_from_slice(&ORDINARY);
        let hold = any_hold(random);
        numbers[HOOK_HOLD] = pick(random, &[ORDINARY[HOOK_HOLD], hold]);
    }
    numbers
}

/// Any, or these with some of them changed.
pub fn drawn_near<const N: usize>(numbers: [i32; N], random: &mut Xorshift) -> [i32; N] {
    match below(random, 4) {
        0 => numbers.map(|_| any(random)),
        1 => numbers.map(|_| near(random)),
        _ => damaged(numbers, random),
    }
}

/// Of all sizes, and ends.
pub fn any(random: &mut Xorshift) -> i32 {
    match below(random, 4) {
        0 => pick(random, &ENDS),
        _ => random.pattern() as i32 >> below(random, 32),
    }
}

/// Of the size that numbers of play have.
fn near(random: &mut Xorshift) -> i32 {
    let limit = pick(random, &[1, 2, 6, 20, 400]);
    below(random, 2 * limit + 1) as i32 - limit as i32
}

fn damaged<const N: usize>(numbers: [i32; N], random: &mut Xorshift) -> [i32; N] {
    let one_in = pick(random, &DAMAGED);
    numbers.map(|number| match below(random, one_in) {
        0 => any(random),
        _ => number,
    })
}

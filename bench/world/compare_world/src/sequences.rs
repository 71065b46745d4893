//! The sequences that are drawn.

use harness::SEATS;
use harness::draw::{any_call_or_hold, any_join};
use record_calls::Sequence;
use reference::Xorshift;
use session_texts::play;
use tile_map::draw::{below, pick, random_map};

type Draw = fn(&mut Xorshift) -> Sequence;

/// Most of the last are of all seats.
const KINDS: [Draw; 12] = [
    play::ordinary,
    play::full,
    play::apart,
    play::extreme,
    play::limits,
    play::at_map_ends,
    wrong_sides,
    play::spiked,
    play::all_seats,
    play::any_seats,
    play::id_limits,
    play::holds,
];

const CALLS: usize = 70;

/// That of a number; the kinds take turns.
pub fn drawn(seed: u64, number: u64) -> Sequence {
    let mut random = Xorshift::seeded(seed.wrapping_mul(1 << 32).wrapping_add(number));
    KINDS[number as usize % KINDS.len()](&mut random)
}

/// Now and then a call is told sides that are not the map's.
fn wrong_sides(random: &mut Xorshift) -> Sequence {
    let (width, height) = (1 + below(random, 12), 1 + below(random, 12));
    let map = random_map(width, height, 2, random);
    let mut sequence = Sequence::on(&map);
    sequence.call(any_join(SEATS, &map, random));
    for _ in 0..CALLS {
        let call = any_call_or_hold(SEATS, &sequence.world, &map, random);
        let sides = sides((width as u32, height as u32), random);
        sequence.with_sides(sides, call);
    }
    sequence
}

/// Those of the map more often than not.
pub fn sides((width, height): (u32, u32), random: &mut Xorshift) -> (u32, u32) {
    let any = random.pattern();
    let wrong = [
        (0, height),
        (width, 0),
        (width + 1, height),
        (width, height - 1),
        (1025, height),
        (width, any),
        (any, any),
        (height, width),
        (1, width * height),
    ];
    match below(random, 4) {
        0 => pick(random, &wrong),
        _ => (width, height),
    }
}

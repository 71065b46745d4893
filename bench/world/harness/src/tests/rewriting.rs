//! What is written of a call is what it changes.

use crate::World;
use crate::draw::any_call_or_hold;
use crate::encoding::{decoded, encoded};
use crate::rewriting::rewritten;
use crate::slot::SEATS;
use crate::tunings::TUNINGS;
use crate::{Call, NOTHING};
use libtw2_gamenet::snap_obj::PlayerInput;
use reference::Xorshift;
use tile_map::draw::{below, random_map};

const LISTS: u64 = 40;
const CALLS: usize = 120;

/// From a fresh world the numbers are always those of the world.
#[test]
fn the_numbers_follow_the_world() {
    for number in 0..LISTS {
        let mut random = Xorshift::seeded(number);
        let (width, height) = (2 + below(&mut random, 12), 2 + below(&mut random, 8));
        let map = random_map(width, height, 3, &mut random);
        let mut world = World::fresh();
        let mut numbers = encoded(&world);
        for _ in 0..CALLS {
            let call = any_call_or_hold(SEATS, &world, &map, &mut random);
            if let Ok(told) = world.call(&map, call) {
                numbers = rewritten(numbers, call, &world, &told);
            }
            assert!(numbers == encoded(&world));
        }
    }
}

/// A presence of 7 and what stands at absent seats stay, and so does all that is not told.
#[test]
fn an_input_writes_five_numbers() {
    let mut numbers = encoded(&World::fresh());
    numbers
        .iter_mut()
        .skip(TUNINGS)
        .for_each(|number| *number = 7);
    let mut world = decoded(&numbers);
    let input = PlayerInput {
        direction: -1,
        target_x: 2,
        target_y: 3,
        jump: 4,
        hook: 5,
    };
    let call = Call::Input { id: 63, input };
    assert!(world.input(63, input).is_ok());
    let after = rewritten(numbers, call, &world, &NOTHING);
    let changed = (0..numbers.len()).filter(|&at| after[at] != numbers[at]);
    let first = numbers.len() - 6;
    assert!(changed.eq(first..first + 5));
    assert!(encoded(&decoded(&after)) == encoded(&world));
}

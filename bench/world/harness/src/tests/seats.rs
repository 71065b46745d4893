//! Ids up to the last seat: who has which, who comes first, and what is none.

use super::{HOOK, NO_SEAT, hook, open, spiked, told};
use crate::encoding::{WORLD_NUMBERS, decoded, encoded};
use crate::tunings::TUNINGS;
use crate::{Refusal, SEATS, World};
use original::{Hook, State};

/// The first, those about the sixteenth, and the last two.
const IDS: [i32; 6] = [0, 15, 16, 17, 62, 63];

/// Where the numbers of the first seat's record begin, and what is looked at of them.
const RECORD: usize = TUNINGS + 1;
const HOOKED_PLAYER: usize = 8;
const HOOK_STATE: usize = 9;

fn joined(places: &[(i32, i32, i32)]) -> World {
    let mut world = World::fresh();
    for &(id, x, y) in places {
        assert_eq!(world.join(&open(), id, x, y), Ok(()));
    }
    world
}

#[test]
fn ids_go_from_0_to_63() {
    assert_eq!((SEATS, NO_SEAT), (64, 64));
    let mut world = joined(&IDS.map(|id| (id, 40 * id, 40)));
    assert_eq!(world.join(&open(), NO_SEAT, 40, 40), Err(Refusal::Id));
    let published = world.step(&open()).expect("short walks");
    assert_eq!(told(published), (IDS.to_vec(), vec![]));
    for id in IDS {
        assert_eq!(world.input(id, HOOK), Ok(()));
        assert_eq!(world.floor_mark(id), Ok(false));
        assert_eq!(world.leave(id), Ok(()));
        assert_eq!(world.leave(id), Err(Refusal::Absent));
    }
    assert_eq!(encoded(&world), encoded(&World::fresh()));
}

/// Of two who are as near to the hook.
#[test]
fn the_lower_id_is_grabbed() {
    for (lower, higher) in [(0, 63), (15, 16), (62, 63), (16, 63)] {
        let mut world = joined(&[(higher, 82, 20), (lower, 82, -20), (40, 0, 0)]);
        world.input(40, HOOK).expect("present");
        world.step(&open()).expect("short walks");
        assert_eq!(hook(&world, 40), [3, lower as u32]);
    }
}

/// Who is dragged has ticked before the holder, or ticks after it.
#[test]
fn lower_ids_tick_first() {
    let speeds = |[left, right]: [i32; 2]| {
        let mut world = joined(&[(left, 0, 0), (right, 120, 0)]);
        world.input(left, HOOK).expect("present");
        for _ in 0..2 {
            world.step(&open()).expect("short walks");
        }
        [left, right].map(|id| State::from(world.slots[id as usize].character).vel.x)
    };
    let (rising, falling) = (speeds([0, 63]), speeds([63, 0]));
    assert_eq!(rising[0], falling[0]);
    // Friction meets the pull where the held one ticks after it.
    assert!(rising[1] < 0.0 && rising[1] > falling[1]);
    assert_eq!(speeds([15, 16]), rising);
    assert_eq!(speeds([16, 15]), falling);
}

#[test]
fn the_last_one_is_released_and_dies() {
    for (holder, leaves) in [(0, true), (16, true), (62, true), (0, false)] {
        let mut world = joined(&[(holder, 0, 0), (63, 120, 0)]);
        world.input(holder, HOOK).expect("present");
        for _ in 0..2 {
            world.step(&open()).expect("short walks");
        }
        assert_eq!(hook(&world, holder as usize), [3, 63]);
        if leaves {
            assert_eq!(world.leave(63), Ok(()));
        } else {
            let published = world.step(&spiked()).expect("short walks");
            assert_eq!(told(published), (vec![holder, 63], vec![63]));
        }
        assert_eq!(hook(&world, holder as usize), [0, 0]);
    }
}

/// As in the Rust: ids in hooks are not seats. Nobody's leave lets go of it.
#[test]
fn a_hook_may_hold_an_id_without_a_seat() {
    for held in [63, NO_SEAT, NO_SEAT + 1, -2, i32::MIN, i32::MAX] {
        let mut numbers: [i32; WORLD_NUMBERS] = encoded(&joined(&[(0, 0, 0), (63, 40, 40)]));
        numbers[RECORD + HOOKED_PLAYER] = held;
        numbers[RECORD + HOOK_STATE] = 5;
        let mut world = decoded(&numbers);
        let state = State::from(world.slots[0].character);
        assert!(matches!(state.hook, Hook::Grabbed(id, 0) if id.0 == held as u32));
        assert_eq!(encoded(&world), numbers);
        world.leave(63).expect("present");
        assert_eq!(hook(&world, 0) == [0, 0], held == 63);
    }
}

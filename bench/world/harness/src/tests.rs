//! The example of document 01, the order among refusals, and that a refused call changes nothing.

mod holds;
mod rewriting;
mod roles;
mod screens;
mod searches;
mod seats;
mod sending;
mod sending_lists;
mod trials;

use crate::encoding::encoded_removed;
use crate::tunings::{GRAVITY, HOOK_FIRE_SPEED, HOOK_LENGTH, ORDINARY};
use crate::{Call, Published, Refusal, SEATS, World};
use libtw2_gamenet::snap_obj::PlayerInput;
use original::{State, core_numbers, input_numbers};
use tile_map::Map;

/// One more than the last id.
const NO_SEAT: i32 = SEATS as i32;

const HOOK: PlayerInput = PlayerInput {
    direction: 0,
    target_x: 1,
    target_y: 0,
    jump: 0,
    hook: 1,
};

fn open() -> Map {
    Map::from_rows(&["000", "000", "000"])
}

/// Its right column is solid.
fn walled() -> Map {
    Map::from_rows(&["001", "001", "001"])
}

/// Its right column is deadly.
fn spiked() -> Map {
    Map::from_rows(&["002", "002", "002"])
}

fn no_map() -> Map {
    Map { width: 2, ..open() }
}

fn numbers(world: &World) -> Vec<(bool, [u32; 12], [i32; 5], bool)> {
    let slot = |id: usize| {
        let slot = world.slots[id];
        let state = State::from(slot.character).words();
        let input = input_numbers(slot.input);
        (slot.present, state, input, slot.grounded)
    };
    (0..SEATS).map(slot).collect()
}

/// The case of the hook, and whom it holds.
fn hook(world: &World, id: usize) -> [u32; 2] {
    let words = State::from(world.slots[id].character).words();
    [words[4], words[5]]
}

/// Whose record a step took, and whom it removed.
fn told(published: Published) -> (Vec<i32>, Vec<i32>) {
    let ids = (0..)
        .zip(published.records)
        .filter_map(|(id, record)| record.map(|_| id));
    (ids.collect(), published.removed_ids().collect())
}

/// The first holds the second, the third the first.
fn holding() -> World {
    let mut world = World::fresh();
    for (id, x) in [(1, 0), (2, 120), (3, -120)] {
        world.join(&open(), id, x, 0).expect("clear");
        world.input(id, HOOK).expect("present");
    }
    world.input(2, PlayerInput::default()).expect("present");
    for _ in 0..3 {
        world.step(&open()).expect("short walks");
    }
    world
}

#[test]
fn the_example_falls_half_a_unit() {
    let mut world = World::fresh();
    assert_eq!(world.join(&open(), 0, 48, 48), Ok(()));
    let published = world.step(&open()).expect("a short walk");
    let record = core_numbers(published.records[0].expect("present"));
    assert_eq!(record, [0, 48, 49, 0, 128, 0, 0, 0, -1, 0, 0, 0, 0, 0, 0]);
    assert!(published.records[1..].iter().all(Option::is_none));
}

#[test]
fn a_join_is_refused_with_the_lowest_number() {
    let mut world = World::fresh();
    let (far, inside) = (100_001, 80);
    assert_eq!(world.join(&walled(), 3, 48, 48), Ok(()));
    let mut join = |map: &Map, id, x| world.join(map, id, x, 48);
    assert_eq!(join(&no_map(), NO_SEAT, far), Err(Refusal::Map));
    assert_eq!(join(&walled(), NO_SEAT, far), Err(Refusal::Id));
    assert_eq!(join(&walled(), -1, far), Err(Refusal::Id));
    assert_eq!(join(&walled(), 3, far), Err(Refusal::Place));
    assert_eq!(join(&walled(), 3, inside), Err(Refusal::NotClear));
    assert_eq!(join(&walled(), 3, 48), Err(Refusal::Present));
    assert_eq!(join(&walled(), 4, 49), Ok(()));
    assert_eq!(join(&walled(), 5, -100_000), Ok(()));
}

#[test]
fn maps_are_refused_by_their_sides_and_their_count() {
    let sides = [
        (0, 0),
        (0, 1),
        (1, 0),
        (1025, 1),
        (1, 1025),
        (1 << 32, 1 << 32),
    ];
    for (width, height) in sides {
        let tiles = vec![0; 1025 * usize::from(width == 1025 || height == 1025)];
        let map = Map {
            width,
            height,
            tiles,
        };
        assert_eq!(World::fresh().step(&map).err(), Some(Refusal::Map));
    }
    for count in [1023, 1025] {
        let map = Map {
            width: 1024,
            height: 1,
            tiles: vec![0; count],
        };
        assert_eq!(World::fresh().step(&map).err(), Some(Refusal::Map));
    }
    assert!(
        World::fresh()
            .step(&Map::new(1024, 1, vec![0; 1024]))
            .is_ok()
    );
}

#[test]
fn the_absent_neither_leave_nor_are_told() {
    let mut world = World::fresh();
    for id in [-1, NO_SEAT, i32::MIN, i32::MAX] {
        assert_eq!(world.leave(id), Err(Refusal::Id));
        assert_eq!(world.input(id, HOOK), Err(Refusal::Id));
    }
    for id in [0, NO_SEAT - 1] {
        assert_eq!(world.leave(id), Err(Refusal::Absent));
        assert_eq!(world.input(id, HOOK), Err(Refusal::Absent));
    }
}

#[test]
fn who_left_is_as_if_never_there() {
    let mut world = World::fresh();
    world.join(&open(), 7, 20, 30).expect("clear");
    world.input(7, HOOK).expect("present");
    world.step(&open()).expect("a short walk");
    assert_eq!(world.leave(7), Ok(()));
    assert_eq!(numbers(&world), numbers(&World::fresh()));
}

#[test]
fn who_left_is_held_by_nobody() {
    let mut world = holding();
    assert_eq!([hook(&world, 1), hook(&world, 3)], [[3, 2], [3, 1]]);
    assert_eq!(world.leave(2), Ok(()));
    assert_eq!([hook(&world, 1), hook(&world, 3)], [[0, 0], [3, 1]]);
}

#[test]
fn a_tuning_is_any_number() {
    let mut world = World::fresh();
    assert_eq!(world.tune(-1, 5), Err(Refusal::TuningIndex));
    assert_eq!(world.tune(19, 5), Err(Refusal::TuningIndex));
    assert_eq!(world.tunings, ORDINARY);
    assert_eq!(world.tune(17, i32::MIN), Ok(()));
    assert_eq!(world.tunings[17], i32::MIN);
}

/// The hook of the second cannot fly; the first has ticked by then.
#[test]
fn a_step_too_far_gives_the_old_world_back() {
    let mut world = World::fresh();
    world.join(&open(), 0, 20, 20).expect("clear");
    world.join(&open(), 1, 70, 70).expect("clear");
    world.input(1, HOOK).expect("present");
    for index in [HOOK_FIRE_SPEED, HOOK_LENGTH] {
        world.tune(index as i32, i32::MAX).expect("a tuning");
    }
    let before = numbers(&world);
    assert_eq!(world.step(&open()).err(), Some(Refusal::TooFar));
    assert_eq!(numbers(&world), before);
}

#[test]
fn numbers_are_read_as_the_call_that_gave_them() {
    let texts = [
        [1, 2, 3, 4, 0, 0, 0],
        [2, 3, 0, 0, 0, 0, 0],
        [3, 4, 5, 6, 7, 8, 9],
        [4, 0, 0, 0, 0, 0, 0],
        [5, 6, 7, 0, 0, 0, 0],
    ];
    for numbers in texts {
        let call = Call::from_numbers(numbers).expect("a call");
        assert_eq!(call.numbers(), numbers);
        for spare in (1..7).filter(|&place| numbers[place] == 0) {
            let mut wrong = numbers;
            wrong[spare] = -1;
            assert_eq!(Call::from_numbers(wrong).err(), Some(Refusal::Text));
        }
    }
    for code in [0, 6, -1] {
        let wrong = Call::from_numbers([code, 0, 0, 0, 0, 0, 0]);
        assert_eq!(wrong.err(), Some(Refusal::Text));
    }
}

/// Who joins has no mark, also on a floor; the step that jumps off leaves one.
#[test]
fn a_mark_is_of_where_the_last_step_began() {
    let floor = Map::from_rows(&["000", "000", "111"]);
    let jump = PlayerInput {
        jump: 1,
        ..PlayerInput::default()
    };
    let mut world = World::fresh();
    world.join(&floor, 2, 48, 49).expect("clear");
    assert_eq!(world.floor_mark(2), Ok(false));
    world.step(&floor).expect("a short walk");
    assert_eq!(world.floor_mark(2), Ok(true));
    world.input(2, jump).expect("present");
    world.step(&floor).expect("a short walk");
    assert_eq!(world.floor_mark(2), Ok(true));
    assert_eq!(world.step(&no_map()).err(), Some(Refusal::Map));
    assert_eq!(world.floor_mark(2), Ok(true));
    world.step(&floor).expect("a short walk");
    assert_eq!(world.floor_mark(2), Ok(false));
    assert_eq!(world.floor_mark(3), Err(Refusal::Absent));
    assert_eq!(world.floor_mark(NO_SEAT), Err(Refusal::Id));
}

#[test]
fn who_ends_a_step_on_spikes_is_removed() {
    let mut world = World::fresh();
    for (id, x, y) in [(9, 90, 20), (3, 50, 20), (4, 49, 70)] {
        world.join(&spiked(), id, x, y).expect("clear");
        world.input(id, HOOK).expect("present");
    }
    let published = world.step(&spiked()).expect("short walks");
    assert_eq!(told(published), (vec![3, 4, 9], vec![3, 9]));
    let (ids, count) = encoded_removed(&published);
    assert_eq!((&ids[..3], count), (&[3, 9, 0][..], 2));
    assert!(world.slots[4].present);
    let (left, fresh) = (numbers(&world), numbers(&World::fresh()));
    assert!((0..SEATS).all(|id| id == 4 || left[id] == fresh[id]));
}

/// The record is taken before the removal, so it still tells the grab.
#[test]
fn who_died_is_held_by_nobody() {
    let mut world = holding();
    let published = world.step(&spiked()).expect("short walks");
    assert_eq!(told(published), (vec![1, 2, 3], vec![2]));
    let record = published.records[1].expect("present");
    assert_eq!((record.hook_state, record.hooked_player), (5, 2));
    assert_eq!([hook(&world, 1), hook(&world, 3)], [[0, 0], [3, 1]]);
}

#[test]
fn who_joins_on_spikes_stays_until_the_step() {
    let mut world = World::fresh();
    assert_eq!(world.join(&spiked(), 6, 80, 48), Ok(()));
    assert_eq!(world.join(&spiked(), 6, 80, 48), Err(Refusal::Present));
    assert_eq!(world.input(6, HOOK), Ok(()));
    let published = world.step(&spiked()).expect("short walks");
    assert_eq!(told(published), (vec![6], vec![6]));
    assert_eq!(world.input(6, HOOK), Err(Refusal::Absent));
    assert_eq!(world.join(&spiked(), 6, 80, 48), Ok(()));
}

#[test]
fn a_refused_step_removes_nobody() {
    let mut world = World::fresh();
    for (id, y) in [(0, 20), (1, 70)] {
        world.join(&spiked(), id, 80, y).expect("clear");
    }
    world.input(1, HOOK).expect("present");
    for index in [HOOK_FIRE_SPEED, HOOK_LENGTH] {
        world.tune(index as i32, i32::MAX).expect("a tuning");
    }
    let before = numbers(&world);
    assert_eq!(world.step(&spiked()).err(), Some(Refusal::TooFar));
    assert_eq!(world.step(&no_map()).err(), Some(Refusal::Map));
    assert_eq!(numbers(&world), before);
    world.input(1, PlayerInput::default()).expect("present");
    let published = world.step(&spiked()).expect("short walks");
    assert_eq!(told(published), (vec![0, 1], vec![0, 1]));
}

/// Every point is on the one tile of this map.
#[test]
fn everybody_dies_at_once() {
    let spikes = Map::from_rows(&["2"]);
    let mut world = World::fresh();
    world.join(&spikes, 0, 5000, 5000).expect("clear");
    for id in 1..SEATS as i32 {
        world.join(&spikes, id, -50 * id, 50).expect("clear");
    }
    let all: Vec<i32> = (0..SEATS as i32).collect();
    let published = world.step(&spikes).expect("short walks");
    assert_eq!(told(published), (all.clone(), all));
    assert_eq!(numbers(&world), numbers(&World::fresh()));
    let published = world.step(&spikes).expect("nobody walks");
    assert_eq!(told(published), (vec![], vec![]));
}

/// At the last unit at which just that corner is on the middle tile.
#[test]
fn every_corner_kills_alone() {
    let map = Map::from_rows(&["000", "020", "000"]);
    let dies = |x, y| {
        let mut world = World::fresh();
        world.tune(GRAVITY as i32, 0).expect("a tuning");
        world.join(&map, 8, x, y).expect("clear");
        world.step(&map).expect("short walks").removed[8]
    };
    for (x, away_x) in [(18, -1), (77, 1)] {
        for (y, away_y) in [(18, -1), (77, 1)] {
            assert!(dies(x, y));
            assert!(!dies(x + away_x, y) && !dies(x, y + away_y));
        }
    }
}

//! Searches: the order of the lists, which of them count, and the refusals.

use super::{NO_SEAT, holding, no_map, numbers, open, spiked};
use crate::draw::{any_call, present_id};
use crate::encoding::{WORLD_NUMBERS, encoded};
use crate::roles::{BOARD, REFEREE};
use crate::search::{Buttons, WAY_NUMBERS, lent_search, lists};
use crate::tunings::{
    AIR_CONTROL_ACCEL, AIR_CONTROL_SPEED, AIR_JUMP_IMPULSE, GRAVITY, RAMP_CURVATURE, RAMP_RANGE,
    RAMP_START,
};
use crate::{Refusal, SEATS, World};
use libtw2_gamenet::snap_obj::PlayerInput;
use reference::Xorshift;
use tile_map::Map;
use tile_map::draw::random_map;

const WORLDS: usize = 20;
const CALLS: usize = 60;

/// The ground begins at y = 64.
fn floor() -> Map {
    Map::from_rows(&["00000000", "00000000", "11111111"])
}

fn standing() -> World {
    let mut world = World::fresh();
    world.join(&floor(), 3, 120, 49).expect("clear");
    world
}

fn list(steps: &[(i32, i32)]) -> Vec<Buttons> {
    let buttons = |&(direction, jump): &(i32, i32)| Buttons { direction, jump };
    steps.iter().map(buttons).collect()
}

/// Direction before jump, the first step before the second, and shorter ones before all.
#[test]
fn the_order_of_the_lists() {
    let lists = lists();
    assert_eq!(lists.len(), 6 + 36 + 216);
    let first = [[(-1, 0)], [(-1, 1)], [(0, 0)], [(0, 1)], [(1, 0)], [(1, 1)]];
    assert_eq!(lists[..6], first.map(|steps| list(&steps)));
    assert_eq!(lists[6], list(&[(-1, 0), (-1, 0)]));
    assert_eq!(lists[8], list(&[(-1, 0), (0, 0)]));
    assert_eq!(lists[12], list(&[(-1, 1), (-1, 0)]));
    assert_eq!(lists[257], list(&[(1, 1); 3]));
    for pair in lists.windows(2) {
        let key = |list: &Vec<Buttons>| (list.len(), list.clone());
        assert!(key(&pair[0]) < key(&pair[1]));
    }
}

/// Two units in the first step on the ground, four in the next; nothing is found at once.
#[test]
fn one_two_and_three_steps() {
    let world = standing();
    let before = numbers(&world);
    let found = |x, y| world.search(&floor(), 3, (x, y)).expect("a search");
    assert_eq!(found(120, 49), Some(list(&[(0, 0)])));
    assert_eq!(found(122, 49), Some(list(&[(1, 0)])));
    assert_eq!(found(118, 49), Some(list(&[(-1, 0)])));
    assert_eq!(found(120, 36), Some(list(&[(0, 1)])));
    assert_eq!(found(126, 49), Some(list(&[(1, 0), (1, 0)])));
    assert_eq!(found(132, 49), Some(list(&[(1, 0); 3])));
    assert_eq!(found(133, 49), None);
    assert_eq!(found(120, 50), None);
    assert_eq!(numbers(&world), before);
}

/// The first of all lists, in their order, whose end is the place.
#[test]
fn lists_one_by_one() {
    let mut random = Xorshift::default();
    for _ in 0..WORLDS {
        let map = random_map(6, 5, 4, &mut random);
        let mut world = World::fresh();
        for _ in 0..CALLS {
            let call = any_call(SEATS, &world, &map, &mut random);
            let _ = world.call(&map, call);
        }
        let id = present_id(&world, &mut random);
        let ends: Vec<_> = lists()
            .iter()
            .map(|list| world.place_after(&map, id, list))
            .collect();
        for place in ends.iter().flatten().step_by(20) {
            let first = ends
                .iter()
                .position(|&end| end == Some(*place))
                .expect("the end of one");
            let found = world.search(&map, id, *place).expect("a search");
            assert_eq!(found.as_ref(), lists().get(first));
        }
    }
}

/// In the air the button makes no difference after the jump in it is used, so 0 is told.
#[test]
fn the_first_of_several() {
    let mut world = World::fresh();
    world.join(&open(), 7, 40, 40).expect("clear");
    world.tune(GRAVITY as i32, 0).expect("a tuning");
    let found = |x, y| world.search(&open(), 7, (x, y)).expect("a search");
    assert_eq!(found(40, 40), Some(list(&[(0, 0)])));
    // A jump in the air, then nothing or the button held.
    assert_eq!(found(40, 16), Some(list(&[(0, 1), (0, 0)])));
}

/// At the corner of a solid tile it stays where it is, left and up at once and with nothing pressed.
#[test]
fn direction_comes_before_jump() {
    let map = Map::from_rows(&["100", "000", "000"]);
    let mut world = World::fresh();
    world.join(&map, 5, 46, 46).expect("clear");
    for (index, hundredths) in [
        (GRAVITY, 0),
        (RAMP_CURVATURE, 100),
        (AIR_CONTROL_SPEED, 1300),
        (AIR_CONTROL_ACCEL, 1300),
        (AIR_JUMP_IMPULSE, 1300),
    ] {
        world.tune(index as i32, hundredths).expect("a tuning");
    }
    let after = |steps| world.place_after(&map, 5, &list(&[steps]));
    assert_eq!(after((-1, 0)), Some((33, 46)));
    assert_eq!(after((0, 0)), Some((46, 46)));
    let found = world.search(&map, 5, (46, 46));
    assert_eq!(found, Ok(Some(list(&[(-1, 1)]))));
}

/// The record of the step that removes it counts; what would come after does not.
#[test]
fn spikes_in_the_last_step_and_before() {
    let mut world = World::fresh();
    world.join(&spiked(), 4, 49, 40).expect("clear");
    world.tune(GRAVITY as i32, 0).expect("a tuning");
    let found = |x| world.search(&spiked(), 4, (x, 40)).expect("a search");
    // 1.5 units to the right, so that its corner is at 64.5 or more.
    assert_eq!(found(51), Some(list(&[(1, 0)])));
    let after = |list: &[Buttons]| world.place_after(&spiked(), 4, list);
    assert!(after(&list(&[(1, 0)])).is_some());
    assert_eq!(after(&list(&[(1, 0), (0, 0)])), None);
    // Another way to where it would be if it lived.
    assert_eq!(found(54), None);
}

/// Whoever walks is refused, so only who stands counts.
#[test]
fn lists_that_are_refused() {
    let mut world = standing();
    for (index, hundredths) in [(RAMP_START, 0), (RAMP_RANGE, 1), (RAMP_CURVATURE, 1)] {
        world.tune(index as i32, hundredths).expect("a tuning");
    }
    let found = |x| world.search(&floor(), 3, (x, 49)).expect("a search");
    assert_eq!(world.place_after(&floor(), 3, &list(&[(1, 0)])), None);
    assert_eq!(found(120), Some(list(&[(0, 0)])));
    assert_eq!(found(122), None);
}

/// Who is told something else goes on with it, and the hook of the one that is looked for lets go.
#[test]
fn others_do_as_they_were_told() {
    let world = holding();
    let before = numbers(&world);
    for id in [1, 2, 3] {
        let mut next = world.clone();
        let input = next.stored_input(id).expect("present");
        next.input(id, PlayerInput { hook: 0, ..input })
            .expect("present");
        let published = next.step(&open()).expect("short walks");
        let core = published.records[id as usize].expect("present");
        let after = world.place_after(&open(), id, &list(&[(0, 0)]));
        assert_eq!(after, Some((core.x, core.y)));
        let found = world.search(&open(), id, (core.x, core.y));
        assert_eq!(found.expect("a search").map(|list| list.len()), Some(1));
    }
    assert_eq!(numbers(&world), before);
}

#[test]
fn refusals_in_their_order() {
    let world = standing();
    let search = |map: &Map, id| world.search(map, id, (0, 0)).err();
    assert_eq!(search(&no_map(), NO_SEAT), Some(Refusal::Map));
    assert_eq!(search(&open(), NO_SEAT), Some(Refusal::Id));
    assert_eq!(search(&open(), -1), Some(Refusal::Id));
    assert_eq!(search(&open(), 4), Some(Refusal::Absent));
    assert_eq!(search(&open(), 3), None);
}

/// The role before the lengths, and these before the rest.
#[test]
fn roles_lengths_and_numbers() {
    let numbers = encoded(&standing());
    let lent = |role, length, room| {
        let world = [&numbers[..], &[0]].concat();
        lent_search(role, &world[..length], &no_map(), NO_SEAT, (0, 0), room)
    };
    for role in [BOARD, 3, NO_SEAT, -3, i32::MIN] {
        assert_eq!(lent(role, 0, 0), Err(Refusal::NotAllowed));
    }
    for (length, room) in [(0, 7), (WORLD_NUMBERS - 1, 7), (WORLD_NUMBERS + 1, 7)] {
        assert_eq!(lent(REFEREE, length, room), Err(Refusal::Length));
    }
    for room in [0, 1, 6, 8] {
        assert_eq!(lent(REFEREE, WORLD_NUMBERS, room), Err(Refusal::Length));
    }
    assert_eq!(lent(REFEREE, WORLD_NUMBERS, WAY_NUMBERS), Err(Refusal::Map));
    let found = |place| lent_search(REFEREE, &numbers, &floor(), 3, place, WAY_NUMBERS);
    assert_eq!(found((126, 49)), Ok([2, 1, 0, 1, 0, 0, 0]));
    assert_eq!(found((300, 49)), Ok([0; WAY_NUMBERS]));
}

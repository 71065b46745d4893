//! Who may ask what, that this is asked first, and that what is beyond a role counts for
//! nothing.

use super::{HOOK, NO_SEAT, holding, hook, no_map, numbers, open, spiked, walled};
use crate::draw::{any_ask, any_role};
use crate::encoding::{encoded, encoded_records, encoded_removed};
use crate::roles::{Ask, BOARD, REFEREE, Role, Told};
use crate::tunings::ORDINARY;
use crate::{Call, Refusal, SEATS, World};
use original::{CharacterId, Hook, State, core_numbers};
use reference::Xorshift;
use tile_map::Map;
use tile_map::draw::{below, random_map};

const NO_ROLES: [i32; 4] = [-3, -4, i32::MIN, i32::MIN + 1];

const LISTS: u64 = 60;
const ASKS: usize = 120;

fn input(id: i32) -> Ask {
    Ask::Call(Call::Input { id, input: HOOK })
}

/// What is neither an input nor a read of a record or a mark.
fn others(id: i32) -> Vec<Ask> {
    let join = Call::Join { id, x: 20, y: 20 };
    let index = id;
    let hundredths = 7;
    let tune = Call::Tune { index, hundredths };
    let calls = [join, Call::Leave { id }, Call::Step, tune];
    let mut asks = calls.map(Ask::Call).to_vec();
    asks.extend([Ask::StoredInput { id }, Ask::Tuning { index }]);
    asks
}

fn records_and_marks(id: i32) -> [Ask; 2] {
    [Ask::Record { id }, Ask::FloorMark { id }]
}

/// The number, and all that is told.
fn answer(world: &mut World, map: &Map, role: i32, ask: Ask) -> Result<Vec<i32>, Refusal> {
    Ok(match world.ask(map, role, ask)? {
        Told::Read(numbers) => numbers,
        Told::Published(published) => {
            let (removed, count) = encoded_removed(&published);
            let records = encoded_records(&published);
            [&records[..], &removed, &[count as i32]].concat()
        }
    })
}

fn refused(world: &mut World, role: i32, ask: Ask) -> Option<Refusal> {
    answer(world, &open(), role, ask).err()
}

#[test]
fn a_role_is_a_number() {
    assert_eq!(Role::of(-1), Some(Role::Referee));
    assert_eq!(Role::of(-2), Some(Role::Board));
    for id in [0, 63, NO_SEAT, i32::MAX] {
        assert_eq!(Role::of(id), Some(Role::Seat(id)));
    }
    for number in NO_ROLES {
        assert_eq!(Role::of(number), None);
    }
}

/// With everything that it may name: present, absent, and no seat or tuning.
#[test]
fn each_role_may_just_its_own() {
    for id in [1, 9, 63, NO_SEAT, -1, -2, -3, i32::MIN, i32::MAX] {
        let mut asks = others(id);
        asks.extend(records_and_marks(id));
        asks.push(input(id));
        for ask in asks {
            let kind = ask.numbers()[0];
            assert!(Role::Referee.may(ask));
            assert_eq!(Role::Board.may(ask), [6, 7].contains(&kind));
            assert_eq!(Role::Seat(id).may(ask), kind == 3);
            assert!(!Role::Seat(id ^ 1).may(ask));
        }
    }
}

/// Of a world in which the first three are present.
#[test]
fn not_allowed_comes_first() {
    let mut world = holding();
    let before = numbers(&world);
    let asks = [1, 9, NO_SEAT, -1].map(others).concat();
    for map in [open(), no_map(), walled()] {
        for &ask in &asks {
            for role in [BOARD, 1, 9, NO_SEAT].into_iter().chain(NO_ROLES) {
                let answer = answer(&mut world, &map, role, ask);
                assert_eq!(answer, Err(Refusal::NotAllowed));
            }
        }
    }
    assert_eq!(numbers(&world), before);
    assert_eq!(world.tunings, ORDINARY);
}

#[test]
fn a_seat_tells_its_own_input_alone() {
    let mut world = holding();
    let before = encoded(&world);
    let no = Some(Refusal::NotAllowed);
    for (role, id, refusal) in [
        (2, 1, no),
        (2, 9, no),
        (9, 9, Some(Refusal::Absent)),
        (NO_SEAT, NO_SEAT, Some(Refusal::Id)),
        (i32::MAX, i32::MAX, Some(Refusal::Id)),
        (REFEREE, -1, Some(Refusal::Id)),
        (BOARD, -2, no),
        (-3, -3, no),
        (i32::MIN, i32::MIN, no),
    ] {
        assert_eq!(refused(&mut world, role, input(id)), refusal);
    }
    assert!(encoded(&world) == before);
    assert_eq!(refused(&mut world, 2, input(2)), None);
    let mut told = holding();
    told.input(2, HOOK).expect("present");
    assert!(encoded(&world) == encoded(&told));
}

#[test]
fn a_board_reads_records_and_marks() {
    let mut world = holding();
    let record = core_numbers(world.slots[1].character.to_net()).to_vec();
    let [of_record, of_mark] = records_and_marks(1);
    for role in [BOARD, REFEREE] {
        assert_eq!(
            answer(&mut world, &open(), role, of_record),
            Ok(record.clone())
        );
        assert_eq!(answer(&mut world, &open(), role, of_mark), Ok(vec![0]));
        for (id, refusal) in [
            (9, Refusal::Absent),
            (NO_SEAT, Refusal::Id),
            (-1, Refusal::Id),
        ] {
            for ask in records_and_marks(id) {
                assert_eq!(refused(&mut world, role, ask), Some(refusal));
            }
        }
    }
    let stored = Ask::StoredInput { id: 1 };
    assert_eq!(
        answer(&mut world, &open(), REFEREE, stored),
        Ok(vec![0, 1, 0, 0, 1])
    );
    let tuning = Ask::Tuning { index: 8 };
    assert_eq!(
        answer(&mut world, &open(), REFEREE, tuning),
        Ok(vec![38000])
    );
}

/// Not that of the last step: who was held has left or died since it was taken.
#[test]
fn a_record_is_of_the_slot_as_it_stands() {
    let held = |world: &mut World| {
        let core = world.record(1).expect("present");
        (core.hook_state, core.hooked_player)
    };
    let mut left = holding();
    assert_eq!(held(&mut left), (5, 2));
    let leave = Ask::Call(Call::Leave { id: 2 });
    assert_eq!(refused(&mut left, 2, leave), Some(Refusal::NotAllowed));
    assert_eq!(held(&mut left), (5, 2));
    assert_eq!(refused(&mut left, REFEREE, leave), None);
    assert_eq!(held(&mut left), (-1, -1));
    let mut died = holding();
    let published = died.step(&spiked()).expect("short walks");
    let core = published.records[1].expect("present");
    assert_eq!((core.hook_state, core.hooked_player), (5, 2));
    assert_eq!(held(&mut died), (-1, -1));
}

/// The last tick that a record has room for, and the next.
#[test]
fn a_hook_that_held_too_long_has_no_record() {
    let held_for = |tick| {
        let mut world = holding();
        let slot = &mut world.slots[1];
        let state = State::from(slot.character);
        let hook = Hook::Grabbed(CharacterId(2), tick);
        slot.character = State { hook, ..state }.into();
        world
    };
    let of_record = Ask::Record { id: 1 };
    let last = i32::MAX as u32;
    assert_eq!(refused(&mut held_for(last), BOARD, of_record), None);
    for tick in [last + 1, u32::MAX] {
        let mut world = held_for(tick);
        assert_eq!(
            refused(&mut world, BOARD, of_record),
            Some(Refusal::TickTooLarge)
        );
        assert_eq!(refused(&mut world, 1, of_record), Some(Refusal::NotAllowed));
        assert_eq!(refused(&mut world, BOARD, Ask::FloorMark { id: 1 }), None);
        assert_eq!(hook(&world, 1), [3, 2]);
    }
}

/// As the owner of the hall wishes to know it, over a world with those struck out beside it.
#[test]
fn what_is_beyond_a_role_counts_for_nothing() {
    let mut counts = [0; 2];
    for number in 0..LISTS {
        let mut random = Xorshift::seeded(number);
        let (width, height) = (2 + below(&mut random, 12), 2 + below(&mut random, 8));
        let map = random_map(width, height, 3, &mut random);
        let (mut world, mut struck) = (World::fresh(), World::fresh());
        for _ in 0..ASKS {
            let ask = any_ask(SEATS, &world, &map, &mut random);
            let role = any_role(SEATS, ask, &mut random);
            let answered = answer(&mut world, &map, role, ask);
            let beyond = answered == Err(Refusal::NotAllowed);
            counts[usize::from(beyond)] += 1;
            if !beyond {
                assert!(answer(&mut struck, &map, role, ask) == answered);
            }
            assert!(encoded(&world) == encoded(&struck));
        }
    }
    assert!(counts.iter().all(|&count| count > 1000), "{counts:?}");
}

/// A seat changes its own stored input alone, and a board nothing.
#[test]
fn only_the_referee_changes_more() {
    let mut seen = [0; 2];
    for number in 0..LISTS {
        let mut random = Xorshift::seeded(number);
        let map = random_map(8, 8, 3, &mut random);
        let mut world = World::fresh();
        for _ in 0..ASKS {
            let ask = any_ask(SEATS, &world, &map, &mut random);
            let role = any_role(SEATS, ask, &mut random);
            let mut before = world.clone();
            let accepted = world.ask(&map, role, ask).is_ok();
            match Role::of(role) {
                Some(Role::Referee) => continue,
                Some(Role::Seat(id)) if accepted => {
                    before.slots[id as usize].input = world.slots[id as usize].input;
                    seen[0] += 1;
                }
                _ => seen[1] += 1,
            }
            assert!(encoded(&world) == encoded(&before));
        }
    }
    assert!(seen.iter().all(|&count| count > 100), "{seen:?}");
}

//! Searches: which list is told first, which do not count, the refusals and their order.

mod common;

use common::{HOOK, NO_MAP, OPEN};
use ponguriena::Role::Referee;
use ponguriena::buffers::{self, WAY_NUMBERS, WORLD_NUMBERS};
use ponguriena::{CharacterId, Map, Refusal, Role, SEATS, Tuning, World};

const FLOOR: Map = Map {
    width: 3,
    height: 3,
    tiles: &[0, 0, 0, 0, 0, 0, 1, 1, 1],
};

/// Its right column is deadly.
const SPIKED: Map = Map {
    width: 3,
    height: 3,
    tiles: &[0, 0, 2, 0, 0, 2, 0, 0, 2],
};

const SEVEN: CharacterId = CharacterId(7);
const EIGHT: CharacterId = CharacterId(8);
const NO_SEAT: CharacterId = CharacterId(SEATS as u32);

/// Start, range and curvature: who walks is too fast for a step.
const RAMP: [(Tuning, i32); 3] = [
    (Tuning::VelrampStart, 0),
    (Tuning::VelrampRange, 1),
    (Tuning::VelrampCurvature, 1),
];

/// Without gravity: the jump in the air, control and curvature, so that all ways are as fast.
const FAST: [(Tuning, i32); 5] = [
    (Tuning::Gravity, 0),
    (Tuning::AirJumpImpulse, 1300),
    (Tuning::AirControlSpeed, 1300),
    (Tuning::AirControlAccel, 1300),
    (Tuning::VelrampCurvature, 100),
];

/// Nobody writes this.
const UNWRITTEN: i32 = -77;

fn standing() -> Result<World, Refusal> {
    let mut world = World::fresh();
    world.join(Referee, &FLOOR, SEVEN, 40, 49)?;
    Ok(world)
}

/// Direction and jump of each step; nothing where there is no way.
fn way(
    world: &World,
    map: &Map,
    id: CharacterId,
    (x, y): (i32, i32),
) -> Result<Vec<[i32; 2]>, Refusal> {
    let way = world.search(Referee, map, id, x, y)?;
    let steps = way.iter().flat_map(|way| way.steps());
    Ok(steps
        .map(|buttons| [buttons.direction, buttons.jump])
        .collect())
}

#[test]
fn one_two_and_three_steps() -> Result<(), Refusal> {
    let world = standing()?;
    let before = world.clone();
    for (place, steps) in [
        ((40, 49), &[[0, 0]][..]),
        ((38, 49), &[[-1, 0]]),
        ((42, 49), &[[1, 0]]),
        ((40, 36), &[[0, 1]]),
        ((46, 49), &[[1, 0], [1, 0]]),
        ((52, 49), &[[1, 0], [1, 0], [1, 0]]),
        ((53, 49), &[]),
        ((40, 50), &[]),
    ] {
        assert_eq!(way(&world, &FLOOR, SEVEN, place)?, steps, "{place:?}");
    }
    assert_eq!(world, before);
    Ok(())
}

/// At the corner of a solid tile it stays where it is, left and up at once and with nothing
/// pressed.
#[test]
fn direction_comes_before_jump() -> Result<(), Refusal> {
    let corner = Map {
        width: 2,
        height: 2,
        tiles: &[1, 0, 0, 0],
    };
    let mut world = World::fresh();
    world.join(Referee, &corner, SEVEN, 46, 46)?;
    for (tuning, hundredths) in FAST {
        world.tune(Referee, tuning, hundredths)?;
    }
    assert_eq!(way(&world, &corner, SEVEN, (46, 46))?, [[-1, 1]]);
    assert_eq!(way(&world, &corner, SEVEN, (33, 46))?, [[-1, 0]]);
    Ok(())
}

/// Every list that is told leads there when it is played.
#[test]
fn a_way_leads_there() -> Result<(), Refusal> {
    let mut world = standing()?;
    world.join(Referee, &FLOOR, EIGHT, 70, 49)?;
    world.input(Referee, EIGHT, HOOK)?;
    world.step(Referee, &FLOOR)?;
    for (x, y) in (30..60).flat_map(|x| (10..50).map(move |y| (x, y))) {
        let Some(way) = world.search(Referee, &FLOOR, SEVEN, x, y)? else {
            continue;
        };
        let mut played = world.clone();
        for buttons in way.steps() {
            let stored = played.player_input(Referee, SEVEN)?;
            played.input(Referee, SEVEN, buttons.input(stored))?;
            played.step(Referee, &FLOOR)?;
        }
        let core = played.record(Role::Board, SEVEN)?;
        assert_eq!((core.x, core.y), (x, y));
    }
    Ok(())
}

/// The last step may end on spikes, no step before it.
#[test]
fn spikes() -> Result<(), Refusal> {
    let mut world = World::fresh();
    world.join(Referee, &SPIKED, SEVEN, 49, 40)?;
    world.tune(Referee, Tuning::Gravity, 0)?;
    assert_eq!(way(&world, &SPIKED, SEVEN, (51, 40))?, [[1, 0]]);
    assert_eq!(way(&world, &SPIKED, SEVEN, (54, 40))?, [[0; 2]; 0]);
    Ok(())
}

#[test]
fn steps_that_are_refused() -> Result<(), Refusal> {
    let mut world = standing()?;
    for (tuning, hundredths) in RAMP {
        world.tune(Referee, tuning, hundredths)?;
    }
    assert_eq!(way(&world, &FLOOR, SEVEN, (40, 49))?, [[0, 0]]);
    assert_eq!(way(&world, &FLOOR, SEVEN, (42, 49))?, [[0; 2]; 0]);
    Ok(())
}

#[test]
fn refusals_in_their_order() -> Result<(), Refusal> {
    let world = standing()?;
    let search = |role, map: &Map, id| world.search(role, map, id, 40, 49).map(drop);
    for role in [Role::Board, Role::Seat(SEVEN), Role::Seat(NO_SEAT)] {
        for (map, id) in [(FLOOR, SEVEN), (NO_MAP, NO_SEAT)] {
            assert_eq!(search(role, &map, id), Err(Refusal::NotAllowed));
        }
    }
    for id in [SEVEN, EIGHT, NO_SEAT, CharacterId(u32::MAX)] {
        assert_eq!(search(Referee, &NO_MAP, id), Err(Refusal::BadMap));
    }
    for id in [SEATS as u32, (1 << 31) - 1, 1 << 31, u32::MAX] {
        let answer = search(Referee, &OPEN, CharacterId(id));
        assert_eq!(answer, Err(Refusal::BadId));
    }
    assert_eq!(search(Referee, &OPEN, EIGHT), Err(Refusal::Absent));
    assert_eq!(search(Referee, &OPEN, SEVEN), Ok(()));
    Ok(())
}

/// The role before the lengths, and these before the rest; what is refused writes nothing.
#[test]
fn lengths() -> Result<(), Refusal> {
    let referee = Referee.number();
    let numbers = [&standing()?.numbers()[..], &[0]].concat();
    let answer = |role, length: usize, room: usize| {
        let mut way = vec![UNWRITTEN; room];
        let world = &numbers[..length];
        let answer = buffers::search(role, world, &NO_MAP, 7, 40, 49, &mut way);
        assert!(way.iter().all(|&number| number == UNWRITTEN));
        answer
    };
    for (length, room) in [(0, 0), (WORLD_NUMBERS - 1, 7), (WORLD_NUMBERS + 1, 7)] {
        assert_eq!(answer(referee, length, room), Err(Refusal::BadLength));
        assert_eq!(answer(7, length, room), Err(Refusal::NotAllowed));
    }
    for room in [0, 1, WAY_NUMBERS - 1, WAY_NUMBERS + 1] {
        let told = answer(referee, WORLD_NUMBERS, room);
        assert_eq!(told, Err(Refusal::BadLength));
    }
    assert_eq!(
        answer(referee, WORLD_NUMBERS, WAY_NUMBERS),
        Err(Refusal::BadMap)
    );
    Ok(())
}

/// Zeros behind the steps, and nothing but zeros where there is no way.
#[test]
fn numbers_of_a_way() -> Result<(), Refusal> {
    let world = standing()?;
    let found = |x| {
        let mut way = [UNWRITTEN; WAY_NUMBERS];
        buffers::search(
            Referee.number(),
            world.numbers(),
            &FLOOR,
            7,
            x,
            49,
            &mut way,
        )?;
        Ok::<_, Refusal>(way)
    };
    assert_eq!(found(46)?, [2, 1, 0, 1, 0, 0, 0]);
    assert_eq!(found(80)?, [0; WAY_NUMBERS]);
    Ok(())
}

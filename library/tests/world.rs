//! The calls of a world: what each does, and the lowest refusal first.

mod common;

use common::{HOOK, NO_MAP, OPEN};
use ponguriena::Role::Referee;
use ponguriena::buffers::TUNINGS;
use ponguriena::{CharacterCore, CharacterId, Map, PlayerInput, Refusal, SEATS, Tuning, World};

/// Its right column is solid.
const WALLED: Map = Map {
    width: 3,
    height: 3,
    tiles: &[0, 0, 1, 0, 0, 1, 0, 0, 1],
};

const FLOOR: Map = Map {
    width: 3,
    height: 3,
    tiles: &[0, 0, 0, 0, 0, 0, 1, 1, 1],
};

/// Its right column is deadly.
const SPIKED: Map = Map {
    width: 3,
    height: 3,
    tiles: &[0, 0, 2, 0, 0, 2, 0, 0, 2],
};

const FIRST: CharacterId = CharacterId(1);
const SECOND: CharacterId = CharacterId(2);
const THIRD: CharacterId = CharacterId(3);
const NO_SEAT: CharacterId = CharacterId(SEATS as u32);

#[test]
fn the_example_of_document_01() -> Result<(), Refusal> {
    let mut world = World::fresh();
    let zero = CharacterId(0);
    world.join(Referee, &OPEN, zero, 48, 48)?;
    let records = world.step(Referee, &OPEN)?;
    let [(id, core)] = records.iter().collect::<Vec<_>>()[..] else {
        panic!("one record is published");
    };
    let fallen = [0, 48, 49, 0, 128, 0, 0, 0, -1, 0, 0, 0, 0, 0, 0];
    assert_eq!((id, core.numbers()), (zero, fallen));
    assert_eq!(world.record(Referee, zero), Ok(core));
    Ok(())
}

#[test]
fn records_come_by_rising_id() -> Result<(), Refusal> {
    let mut world = World::fresh();
    for id in [9_u8, 63, 15, 0, 16, 4] {
        world.join(Referee, &OPEN, id.into(), 20 * i32::from(id), 40)?;
    }
    let records = world.step(Referee, &OPEN)?;
    let ids: Vec<CharacterId> = records.iter().map(|(id, _)| id).collect();
    assert_eq!(ids, [0, 4, 9, 15, 16, 63].map(CharacterId));
    Ok(())
}

#[test]
fn a_join_is_refused_with_the_lowest_number() {
    let mut world = World::fresh();
    let (far, inside) = (100_001, 80);
    assert_eq!(world.join(Referee, &WALLED, FIRST, 48, 48), Ok(()));
    let mut join = |map: &Map, id, x| world.join(Referee, map, id, x, 48);
    assert_eq!(join(&NO_MAP, NO_SEAT, far), Err(Refusal::BadMap));
    assert_eq!(join(&WALLED, NO_SEAT, far), Err(Refusal::BadId));
    assert_eq!(join(&WALLED, FIRST, far), Err(Refusal::OutOfReach));
    assert_eq!(join(&WALLED, FIRST, inside), Err(Refusal::NotClear));
    assert_eq!(join(&WALLED, FIRST, 48), Err(Refusal::Present));
    assert_eq!(join(&WALLED, SECOND, 49), Ok(()));
}

#[test]
fn the_absent_have_nothing() {
    let mut world = World::fresh();
    let no_seat = SEATS as u32;
    for (id, refusal) in [
        (u32::MAX, Refusal::BadId),
        (no_seat, Refusal::BadId),
        (no_seat - 1, Refusal::Absent),
        (15, Refusal::Absent),
        (16, Refusal::Absent),
    ] {
        let id = CharacterId(id);
        assert_eq!(world.leave(Referee, id), Err(refusal));
        assert_eq!(world.input(Referee, id, HOOK), Err(refusal));
        assert_eq!(world.record(Referee, id), Err(refusal));
        assert_eq!(world.player_input(Referee, id), Err(refusal));
        assert_eq!(world.floor_mark(Referee, id), Err(refusal));
    }
    assert_eq!(world, World::fresh());
}

#[test]
fn who_left_is_as_if_never_there() -> Result<(), Refusal> {
    let mut world = World::fresh();
    world.join(Referee, &OPEN, FIRST, 20, 30)?;
    world.input(Referee, FIRST, HOOK)?;
    assert_eq!(world.player_input(Referee, FIRST), Ok(HOOK));
    world.step(Referee, &OPEN)?;
    world.leave(Referee, FIRST)?;
    assert_eq!(world, World::fresh());
    Ok(())
}

/// The first holds the second, the third the first.
fn holding() -> Result<World, Refusal> {
    let mut world = World::fresh();
    for (id, x) in [(FIRST, 0), (SECOND, 120), (THIRD, -120)] {
        world.join(Referee, &OPEN, id, x, 0)?;
    }
    world.input(Referee, FIRST, HOOK)?;
    world.input(Referee, THIRD, HOOK)?;
    for _ in 0..3 {
        world.step(Referee, &OPEN)?;
    }
    Ok(world)
}

/// Its state, and whom it holds.
fn hook(core: CharacterCore) -> (i32, i32) {
    (core.hook_state, core.hooked_player)
}

#[test]
fn who_left_is_held_by_nobody() -> Result<(), Refusal> {
    let mut world = holding()?;
    assert_eq!(hook(world.record(Referee, FIRST)?), (5, 2));
    assert_eq!(hook(world.record(Referee, THIRD)?), (5, 1));
    world.leave(Referee, SECOND)?;
    assert_eq!(hook(world.record(Referee, FIRST)?), (-1, -1));
    assert_eq!(hook(world.record(Referee, THIRD)?), (5, 1));
    Ok(())
}

/// Ids are 0 to 63; of two who are as near a hook grabs the lower one.
#[test]
fn the_last_seat_is_one() -> Result<(), Refusal> {
    assert_eq!(SEATS, 64);
    for (lower, higher) in [(0_u8, 63), (15, 16), (62, 63)] {
        let held = (5, lower.into());
        let [lower, higher, other] = [lower, higher, 40].map(CharacterId::from);
        let mut world = World::fresh();
        world.join(Referee, &OPEN, higher, 82, 20)?;
        world.join(Referee, &OPEN, lower, 82, -20)?;
        world.join(Referee, &OPEN, other, 0, 0)?;
        world.input(Referee, other, HOOK)?;
        world.step(Referee, &OPEN)?;
        assert_eq!(hook(world.record(Referee, other)?), held);
        world.leave(Referee, higher)?;
        assert_eq!(hook(world.record(Referee, other)?), held);
        world.leave(Referee, lower)?;
        assert_eq!(hook(world.record(Referee, other)?), (-1, -1));
    }
    Ok(())
}

/// The record is taken before the removal, so it still tells the grab.
#[test]
fn who_died_is_held_by_nobody() -> Result<(), Refusal> {
    let mut world = holding()?;
    let records = world.step(Referee, &SPIKED)?;
    assert_eq!(records.removed(), [SECOND]);
    let hooks: Vec<_> = records.iter().map(|(id, core)| (id, hook(core))).collect();
    let taken = [(FIRST, (5, 2)), (SECOND, (0, -1)), (THIRD, (5, 1))];
    assert_eq!(hooks, taken);
    assert_eq!(world.record(Referee, SECOND), Err(Refusal::Absent));
    assert_eq!(hook(world.record(Referee, FIRST)?), (-1, -1));
    assert_eq!(hook(world.record(Referee, THIRD)?), (5, 1));
    Ok(())
}

/// By rising id, and not before the step that is accepted.
#[test]
fn who_ends_a_step_on_spikes_is_removed() -> Result<(), Refusal> {
    let mut world = World::fresh();
    for (id, x, y) in [(THIRD, 90, 20), (FIRST, 50, 20), (SECOND, 49, 70)] {
        world.join(Referee, &SPIKED, id, x, y)?;
    }
    assert_eq!(world.step(Referee, &NO_MAP), Err(Refusal::BadMap));
    world.input(Referee, THIRD, HOOK)?;
    let records = world.step(Referee, &SPIKED)?;
    let ids: Vec<CharacterId> = records.iter().map(|(id, _)| id).collect();
    assert_eq!(ids, [FIRST, SECOND, THIRD]);
    assert_eq!(records.removed(), [FIRST, THIRD]);
    assert_eq!(world.step(Referee, &SPIKED)?.removed(), []);
    world.leave(Referee, SECOND)?;
    assert_eq!(world, World::fresh());
    Ok(())
}

#[test]
fn everybody_dies_wherever_they_are() -> Result<(), Refusal> {
    let spikes = Map {
        width: 1,
        height: 1,
        tiles: &[2],
    };
    let mut world = World::fresh();
    for (id, x) in CharacterId::all().zip((0..).step_by(1500)) {
        world.join(Referee, &spikes, id, x, -5000)?;
    }
    let everybody: Vec<CharacterId> = CharacterId::all().collect();
    assert_eq!(world.step(Referee, &spikes)?.removed(), everybody);
    assert_eq!(world, World::fresh());
    Ok(())
}

#[test]
fn a_tuning_is_any_number() {
    let mut world = World::fresh();
    assert_eq!(world.tuning(Referee, Tuning::HookLength), Ok(38000));
    assert_eq!(world.tune(Referee, Tuning::HookLength, i32::MIN), Ok(()));
    assert_eq!(world.tuning(Referee, Tuning::HookLength), Ok(i32::MIN));
    assert_eq!(world.tuning(Referee, 8), Ok(i32::MIN));
    for index in [-1, TUNINGS as i32] {
        assert_eq!(world.tune(Referee, index, 0), Err(Refusal::BadTuning));
        assert_eq!(world.tuning(Referee, index), Err(Refusal::BadTuning));
    }
}

/// The hook of the second cannot fly; the first has ticked by then.
#[test]
fn a_step_too_far_leaves_the_world() -> Result<(), Refusal> {
    let mut world = World::fresh();
    world.join(Referee, &OPEN, FIRST, 20, 20)?;
    world.join(Referee, &OPEN, SECOND, 70, 70)?;
    world.input(Referee, SECOND, HOOK)?;
    world.tune(Referee, Tuning::HookFireSpeed, i32::MAX)?;
    world.tune(Referee, Tuning::HookLength, i32::MAX)?;
    let before = world.clone();
    assert_eq!(world.step(Referee, &OPEN), Err(Refusal::TooFar));
    assert_eq!(world.step(Referee, &NO_MAP), Err(Refusal::BadMap));
    assert_eq!(world, before);
    Ok(())
}

/// Who joins has no mark, also on a floor; the step that jumps off leaves one.
#[test]
fn a_mark_is_of_where_the_last_step_began() -> Result<(), Refusal> {
    let jump = PlayerInput {
        jump: 1,
        ..PlayerInput::default()
    };
    let mut world = World::fresh();
    world.join(Referee, &FLOOR, FIRST, 48, 49)?;
    assert_eq!(world.floor_mark(Referee, FIRST), Ok(false));
    world.step(Referee, &FLOOR)?;
    assert_eq!(world.floor_mark(Referee, FIRST), Ok(true));
    world.input(Referee, FIRST, jump)?;
    world.step(Referee, &FLOOR)?;
    assert_eq!(world.floor_mark(Referee, FIRST), Ok(true));
    assert_eq!(world.step(Referee, &NO_MAP), Err(Refusal::BadMap));
    assert_eq!(world.floor_mark(Referee, FIRST), Ok(true));
    world.step(Referee, &FLOOR)?;
    assert_eq!(world.floor_mark(Referee, FIRST), Ok(false));
    world.leave(Referee, FIRST)?;
    world.join(Referee, &FLOOR, FIRST, 48, 49)?;
    assert_eq!(world.floor_mark(Referee, FIRST), Ok(false));
    Ok(())
}

#[test]
fn a_world_goes_on_from_its_numbers() -> Result<(), Refusal> {
    let mut world = World::fresh();
    world.join(Referee, &OPEN, FIRST, 40, 40)?;
    world.input(Referee, FIRST, HOOK)?;
    let mut kept = World::from_numbers(*world.numbers());
    for _ in 0..20 {
        assert_eq!(world.step(Referee, &OPEN)?, kept.step(Referee, &OPEN)?);
    }
    assert_eq!(world, kept);
    Ok(())
}

#[test]
fn a_refusal_tells_its_number() {
    assert_eq!(
        Refusal::BadMap.to_string(),
        "the sides of the map do not fit its tiles (1)"
    );
    assert_eq!(Refusal::BadLength.number(), 17);
}

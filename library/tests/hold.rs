//! For how many steps a hook holds: limits and refusals, changes while somebody is held, and
//! numbers that no call wrote.

mod common;

use common::{HOOK, NO_MAP, OPEN};
use ponguriena::Role::{Board, Referee, Seat};
use ponguriena::buffers::{TUNINGS, WORLD_NUMBERS};
use ponguriena::trial::game_tunings;
use ponguriena::{
    CharacterId, HookState, LONGEST_HOLD, PlayerInput, Refusal, SHORTEST_HOLD, Trial, Tuning, World,
};

const HOLD: Tuning = Tuning::HookHold;
const NO_HOLDS: [i32; 6] = [0, 61, -1, 6000, i32::MIN, i32::MAX];

/// States of a hook in a record.
const IDLE: i32 = HookState::Idle as i32;
const GRABBED: i32 = HookState::AttachedGrabbed as i32;
const RETRACTED: i32 = HookState::Retracted as i32;

const FIRST: CharacterId = CharacterId(1);
const SECOND: CharacterId = CharacterId(2);

/// The first grabs the second in the next step.
fn about_to_hold() -> Result<World, Refusal> {
    let mut world = World::fresh();
    world.join(Referee, &OPEN, FIRST, 0, 0)?;
    world.join(Referee, &OPEN, SECOND, 100, 0)?;
    world.input(Seat(FIRST), FIRST, HOOK)?;
    Ok(world)
}

fn held_for(steps: i32) -> Result<World, Refusal> {
    let mut world = about_to_hold()?;
    for _ in 0..steps {
        world.step(Referee, &OPEN)?;
    }
    assert_eq!(hook(&world)?, (GRABBED, steps));
    Ok(world)
}

/// Of the first: its state and its tick.
fn hook(world: &World) -> Result<(i32, i32), Refusal> {
    let core = world.record(Board, FIRST)?;
    Ok((core.hook_state, core.hook_tick))
}

#[test]
fn a_hold_is_the_last_tuning() {
    assert_eq!(HOLD as usize + 1, TUNINGS);
    assert_eq!(game_tunings()[HOLD as usize], LONGEST_HOLD);
    assert_eq!(World::fresh().tuning(Referee, HOLD), Ok(LONGEST_HOLD));
}

#[test]
fn holds_outside_are_refused() -> Result<(), Refusal> {
    let mut world = held_for(3)?;
    for hold in SHORTEST_HOLD..=LONGEST_HOLD {
        world.tune(Referee, HOLD, hold)?;
        assert_eq!(world.tuning(Referee, HOLD), Ok(hold));
    }
    let before = world.clone();
    for hold in NO_HOLDS {
        assert_eq!(world.tune(Referee, HOLD, hold), Err(Refusal::BadHold));
        let behind = world.tune(Referee, HOLD as i32 + 1, hold);
        assert_eq!(behind, Err(Refusal::BadTuning));
        let by_a_seat = world.tune(Seat(FIRST), HOLD, hold);
        assert_eq!(by_a_seat, Err(Refusal::NotAllowed));
    }
    assert_eq!(world, before);
    Ok(())
}

#[test]
fn a_hook_holds_for_the_hold() -> Result<(), Refusal> {
    for hold in [1, 2, 59, 60] {
        let mut world = about_to_hold()?;
        world.tune(Referee, HOLD, hold)?;
        for tick in 1..=hold {
            world.step(Referee, &OPEN)?;
            assert_eq!(hook(&world)?, (GRABBED, tick));
        }
        for _ in 0..2 {
            world.step(Referee, &OPEN)?;
            assert_eq!(hook(&world)?, (RETRACTED, 0));
        }
    }
    Ok(())
}

/// The tune itself changes one number of the world; the next step counts with it.
#[test]
fn a_hold_is_tuned_while_somebody_is_held() -> Result<(), Refusal> {
    for hold in [1, 4, 5, 6, 60] {
        let mut world = held_for(5)?;
        let mut numbers = *world.numbers();
        numbers[HOLD as usize] = hold;
        world.tune(Referee, HOLD, hold)?;
        assert_eq!(world.numbers(), &numbers);
        let mut released = world.clone();
        world.step(Referee, &OPEN)?;
        let counted = if hold > 5 {
            (GRABBED, 6)
        } else {
            (RETRACTED, 0)
        };
        assert_eq!(hook(&world)?, counted);
        released.input(Seat(FIRST), FIRST, PlayerInput::default())?;
        released.step(Referee, &OPEN)?;
        assert_eq!(hook(&released)?, (IDLE, 0));
    }
    Ok(())
}

/// They stay as they are, are told as the nearest hold and count as it.
#[test]
fn any_number_is_read_as_the_nearest_hold() -> Result<(), Refusal> {
    for hold in NO_HOLDS {
        let nearest = hold.clamp(SHORTEST_HOLD, LONGEST_HOLD);
        let with_hold = |hold| -> Result<World, Refusal> {
            let mut numbers: [i32; WORLD_NUMBERS] = *held_for(1)?.numbers();
            numbers[HOLD as usize] = hold;
            Ok(World::from_numbers(numbers))
        };
        let [mut world, mut other] = [with_hold(hold)?, with_hold(nearest)?];
        assert_eq!(world.tuning(Referee, HOLD), Ok(nearest));
        for _ in 0..61 {
            let records = world.step(Referee, &OPEN)?;
            assert_eq!(records, other.step(Referee, &OPEN)?);
            assert_eq!(world.numbers()[HOLD as usize], hold);
        }
    }
    Ok(())
}

/// Nobody hooks in a trial, so holds differ in what is refused alone.
#[test]
fn a_trial_has_holds() -> Result<(), Refusal> {
    let held = |trial: Trial, hold| {
        let mut tunings = game_tunings();
        tunings[HOLD as usize] = hold;
        trial.tuning(tunings)
    };
    let joined = || Trial::new().player(CharacterId(3), (40, 40), (2, 2));
    let runs = held(held(joined(), 1), 60).run(&OPEN, 20)?;
    assert_eq!(runs[0], runs[1]);
    for hold in NO_HOLDS {
        let trial = held(held(joined(), 60), hold).player(CharacterId(64), (0, 0), (0, 0));
        assert_eq!(trial.run(&OPEN, 20), Err(Refusal::BadHold));
        assert_eq!(trial.run(&OPEN, -1), Err(Refusal::BadTrial));
        assert_eq!(trial.run(&NO_MAP, 20), Err(Refusal::BadMap));
    }
    Ok(())
}

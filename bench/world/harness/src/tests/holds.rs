//! Change request 13: for how long a hook holds somebody.

use super::{HOOK, numbers, open};
use crate::encoding::{decoded, encoded};
use crate::sending::{Link, Passed, Screen};
use crate::tunings::{HOOK_HOLD, ORDINARY, PLAYER_HOOKING};
use crate::{Call, Refusal, World};
use libtw2_gamenet::snap_obj::PlayerInput;
use original::{Character, CharacterId, Hook, State, core_numbers};

const INDEX: i32 = HOOK_HOLD as i32;

const LIMITS: [i32; 4] = [1, 2, 59, 60];
const NO_HOLDS: [i32; 7] = [0, 61, -1, 6000, -60, i32::MIN, i32::MAX];

/// The first has fired at the second, whom it grabs in the next step.
fn about_to_hold() -> World {
    let mut world = World::fresh();
    world.join(&open(), 1, 0, 0).expect("clear");
    world.join(&open(), 2, 100, 0).expect("clear");
    world.input(1, HOOK).expect("present");
    world
}

/// Held for so many steps.
fn held_for(steps: u32) -> World {
    let mut world = about_to_hold();
    for _ in 0..steps {
        world.step(&open()).expect("short walks");
    }
    assert_eq!(hook(&world), Some(steps));
    world
}

/// The tick of the first one's hook where it holds; none where it is retracted.
fn hook(world: &World) -> Option<u32> {
    match State::from(world.slots[1].character).hook {
        Hook::Grabbed(CharacterId(2), tick) => Some(tick),
        Hook::Retracted => None,
        _ => panic!("neither"),
    }
}

fn hook_after_a_step(mut world: World) -> Option<u32> {
    world.step(&open()).expect("short walks");
    hook(&world)
}

#[test]
fn a_hold_is_one_to_sixty_steps() {
    let mut world = World::fresh();
    assert_eq!(world.tuning(INDEX), Ok(60));
    for hold in 1..=60 {
        assert_eq!(world.tune(INDEX, hold), Ok(()));
        assert_eq!(world.tuning(INDEX), Ok(hold));
    }
    for hold in NO_HOLDS {
        assert_eq!(world.tune(INDEX, hold), Err(Refusal::Hold));
        assert_eq!(world.tune(INDEX + 1, hold), Err(Refusal::TuningIndex));
        assert_eq!(world.tune(-1, hold), Err(Refusal::TuningIndex));
        assert_eq!(world.tune(INDEX - 1, hold), Ok(()));
        assert_eq!(world.tuning(INDEX), Ok(60));
    }
}

/// As many steps tell it, and the next one takes the hook back.
#[test]
fn a_hook_holds_for_the_hold() {
    for hold in LIMITS {
        let mut world = about_to_hold();
        world.tune(INDEX, hold).expect("a hold");
        for tick in 1..=hold as u32 {
            world.step(&open()).expect("short walks");
            assert_eq!(hook(&world), Some(tick));
        }
        for _ in 0..3 {
            world.step(&open()).expect("short walks");
            assert_eq!(hook(&world), None);
        }
    }
}

/// A hold of sixty is libtw2's own time: nothing differs from a world that was never tuned.
#[test]
fn the_longest_hold_is_the_original_one() {
    let (mut world, mut tuned) = (about_to_hold(), about_to_hold());
    tuned.tune(INDEX, 7).expect("a hold");
    tuned.tune(INDEX, 60).expect("a hold");
    for _ in 0..64 {
        let [records, others] = [&mut world, &mut tuned].map(|world| {
            let published = world.step(&open()).expect("short walks");
            published.records.map(|record| record.map(core_numbers))
        });
        assert_eq!(records, others);
        assert_eq!(numbers(&world), numbers(&tuned));
    }
    assert_eq!(hook(&world), None);
}

#[test]
fn a_tune_while_held_counts_from_the_next_step() {
    for held in [1, 2, 30, 59, 60] {
        for hold in [1, 2, 29, 30, 31, 58, 59, 60] {
            let mut world = held_for(held);
            let before = (numbers(&world), world.record(1).map(core_numbers));
            world.tune(INDEX, hold).expect("a hold");
            let after = (numbers(&world), world.record(1).map(core_numbers));
            assert_eq!(after, before);
            let counted = (held < hold as u32).then_some(held + 1);
            assert_eq!(hook_after_a_step(world), counted, "{held} {hold}");
        }
    }
}

/// What lies between two steps is forgotten.
#[test]
fn a_hold_that_was_left_again_takes_nothing_back() {
    let mut world = held_for(5);
    world.tune(INDEX, 1).expect("a hold");
    world.tune(INDEX, 6).expect("a hold");
    assert_eq!(hook_after_a_step(world), Some(6));
}

/// It is Idle, not Retracted, so that it fires in the very next step.
#[test]
fn a_released_hook_is_idle_whatever_the_hold() {
    for hold in LIMITS {
        let mut world = held_for(5);
        world.tune(INDEX, hold).expect("a hold");
        world.input(1, PlayerInput::default()).expect("present");
        world.step(&open()).expect("short walks");
        let hook = State::from(world.slots[1].character).hook;
        assert!(matches!(hook, Hook::Idle));
    }
}

/// In numbers that no call wrote: they stay, and are read as the nearest hold.
#[test]
fn a_hold_outside_is_the_nearest_one() {
    for hold in NO_HOLDS {
        let nearest = if hold < 1 { 1 } else { 60 };
        let mut encoded_world = encoded(&held_for(1));
        encoded_world[HOOK_HOLD] = hold;
        let mut world = decoded(&encoded_world);
        assert_eq!(encoded(&world)[HOOK_HOLD], hold);
        assert_eq!(world.tuning(INDEX), Ok(nearest));
        assert_eq!(hook_after_a_step(world.clone()), (nearest > 1).then_some(2));
        world.step(&open()).expect("short walks");
        assert_eq!(encoded(&world)[HOOK_HOLD], hold);
    }
}

/// Counts that no step makes: each is beyond every hold, also the last, which has no next.
#[test]
fn a_count_beyond_sixty_ends() {
    for tick in [60, 61, i32::MAX as u32, u32::MAX] {
        for hold in LIMITS {
            let mut world = held_for(1);
            world.tune(INDEX, hold).expect("a hold");
            let state = State::from(world.slots[1].character);
            let grabbed = Hook::Grabbed(CharacterId(2), tick);
            world.slots[1].character = Character::from(State {
                hook: grabbed,
                ..state
            });
            assert_eq!(hook_after_a_step(world), None);
        }
    }
}

#[test]
fn the_hold_is_all_that_its_tune_alters() {
    let mut world = held_for(3);
    let before = encoded(&world);
    world.tune(INDEX, 2).expect("a hold");
    let mut expected = before;
    expected[HOOK_HOLD] = 2;
    assert!(encoded(&world) == expected);
    assert_eq!(before[..=HOOK_HOLD], ORDINARY);
}

/// Player hooking is off once somebody is held, so that nothing else surprises: the copies let go
/// in the same step on both sides, and nothing is sent for it.
#[test]
fn a_copy_lets_go_with_the_world() {
    for hold in [1, 2, 5] {
        let mut link = Link::fresh();
        link.world = about_to_hold();
        let mut call = |call| link.call(&open(), call).expect("accepted").passed;
        call(Call::Step);
        call(tune(PLAYER_HOOKING as i32, 0));
        let passed = call(tune(INDEX, hold));
        assert!(
            matches!(passed[..], [Passed::Tune { index: INDEX, hundredths }] if hundredths == hold)
        );
        for _ in 1..=hold {
            let passed = call(Call::Step);
            assert!(matches!(passed[..], [Passed::Mark]));
        }
        let shown = link.screen.shown(1).expect("kept");
        assert_eq!((shown.hook_state, shown.hook_tick.0), (-1, 0));
        assert_eq!(hook(&link.world), None);
    }
}

fn tune(index: i32, hundredths: i32) -> Call {
    Call::Tune { index, hundredths }
}

/// A screen takes any number for it, as it takes any others, and steps by the nearest hold.
#[test]
fn a_screen_takes_any_hold() {
    for (hundredths, state) in [(0, -1), (-5, -1), (1, -1), (2, 5), (61, 5), (i32::MAX, 5)] {
        let mut screen = Screen::fresh();
        let [index, id] = [INDEX, 1];
        let core = held_for(1).record(id).expect("a record");
        let message = Passed::Message {
            id,
            core,
            input: HOOK,
        };
        let things = [message, Passed::Tune { index, hundredths }, Passed::Mark];
        for thing in things {
            assert_eq!(screen.receive(&open(), thing), Ok(()));
        }
        assert_eq!(screen.tunings[HOOK_HOLD], hundredths);
        assert_eq!(screen.shown(id).expect("kept").hook_state, state);
    }
}

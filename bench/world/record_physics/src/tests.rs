//! That the cases are what the vectors are meant to hold.

use crate::all_cases;
use crate::case::{Case, Op};
use crate::scene::SCENE;
use harness::SEATS;
use harness::tunings::{HOOK_HOLD, PLAYER_COLLISION};
use original::{Hook, State};

const LINE_LENGTH: usize = 2574;
const HOOK: usize = 4;

#[test]
fn lines_have_one_length() {
    for case in all_cases() {
        assert_eq!(case.text().len(), LINE_LENGTH);
    }
}

#[test]
fn every_hook_is_given_and_made() {
    for op in [Op::Tick, Op::Move] {
        let cases = all_of(op);
        let given: Vec<u32> = cases.iter().map(|c| c.scene.me().words()[HOOK]).collect();
        let made: Vec<u32> = cases.iter().map(|c| c.answer().me.words()[HOOK]).collect();
        for hook in 0..8 {
            assert!(given.contains(&hook) && made.contains(&hook));
        }
    }
}

#[test]
fn both_are_accepted_and_refused() {
    for op in [Op::Tick, Op::Move] {
        let numbers: Vec<u32> = all_of(op).iter().map(|c| c.answer().number).collect();
        assert!(numbers.contains(&0) && numbers.contains(&9));
    }
}

/// With player collision off the walk of the box runs and nothing is refused.
#[test]
fn some_are_refused_for_the_player_walk_alone() {
    let for_player_walk = |case: &Case| {
        let scene = case.scene.clone().tuned(PLAYER_COLLISION, 0);
        case.answer().number == 9 && Case::moved(scene).answer().number == 0
    };
    assert!(all_of(Op::Move).iter().any(for_player_walk));
}

#[test]
fn all_numbers_of_characters_occur() {
    let count = |case: &Case| case.scene.slots.iter().filter(|slot| slot.present).count();
    let counts: Vec<usize> = all_cases().iter().map(count).collect();
    for expected in 2..=SCENE {
        assert!(counts.contains(&expected));
    }
}

fn all_of(op: Op) -> Vec<Case> {
    let mut cases = all_cases();
    cases.retain(|case| case.op == op);
    cases
}

/// As an own id, and as one that is held and let go.
#[test]
fn ids_beyond_the_scene_occur() {
    let beyond = [SCENE, SCENE + 1, SEATS - 2, SEATS - 1];
    for op in [Op::Tick, Op::Move] {
        let cases = all_of(op);
        let ids: Vec<usize> = cases.iter().map(|case| case.scene.id).collect();
        assert!(beyond.iter().all(|id| ids.contains(id)));
        assert!(ids.iter().all(|id| *id < SCENE || beyond.contains(id)));
    }
    let holds: Vec<[Option<u32>; 2]> = all_cases()
        .iter()
        .map(|case| [case.scene.me(), case.answer().me].map(held))
        .collect();
    for id in beyond.into_iter().chain([SEATS]) {
        let id = Some(id as u32);
        assert!(holds.contains(&[id, id]) && holds.contains(&[id, None]));
    }
}

/// At the hold, one below it and one above; in the tick of the grab, and where it is no hold.
#[test]
fn holds_end() {
    let tick = |state: State| match state.hook {
        Hook::Grabbed(_, tick) => Some(tick),
        _ => None,
    };
    let seen: Vec<(i32, [Option<u32>; 2])> = all_of(Op::Tick)
        .iter()
        .map(|case| {
            let hold = case.scene.tunings[HOOK_HOLD];
            (hold, [case.scene.me(), case.answer().me].map(tick))
        })
        .collect();
    for hold in [1, 2, 30, 59, 60i32] {
        let at = hold.cast_unsigned();
        assert!(seen.contains(&(hold, [Some(at - 1), Some(at)])));
        assert!(seen.contains(&(hold, [Some(at), None])));
        assert!(seen.contains(&(hold, [Some(at + 1), None])));
        assert!(seen.contains(&(hold, [None, Some(1)])));
    }
    for (no_hold, second) in [(0, None), (-1, None), (61, Some(2)), (i32::MAX, Some(2))] {
        assert!(seen.contains(&(no_hold, [None, Some(1)])));
        assert!(seen.contains(&(no_hold, [Some(0), Some(1)])));
        assert!(seen.contains(&(no_hold, [Some(1), second])));
        assert!(seen.contains(&(no_hold, [Some(60), None])));
    }
}

/// A line could not tell it.
#[test]
fn nobody_is_beyond_the_scene() {
    for case in all_cases() {
        let slots = &case.scene.slots[SCENE..];
        assert!(slots.iter().all(|slot| !slot.present));
    }
}

/// Whom its hook holds.
fn held(state: State) -> Option<u32> {
    match state.hook {
        Hook::Grabbed(id, _) => Some(id.0),
        _ => None,
    }
}

//! The states of a hook by their numbers, which are those of libtw2.

use ponguriena::HookState;

const STATES: [(i32, HookState); 7] = [
    (-1, HookState::Retracted),
    (0, HookState::Idle),
    (1, HookState::Retracting0),
    (2, HookState::Retracting1),
    (3, HookState::Retracting2),
    (4, HookState::Flying),
    (5, HookState::AttachedGrabbed),
];

#[test]
fn each_number_has_its_state_or_none() {
    for number in -3..9 {
        let named = STATES.into_iter().find(|&(of, _)| of == number);
        let state = HookState::of_number(number);
        assert_eq!(state, named.map(|(_, state)| state), "{number}");
        assert_eq!(state.map_or(number, |state| state as i32), number);
    }
}

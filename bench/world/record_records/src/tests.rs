//! That the cases are what the vectors are meant to hold.

use crate::all_cases;
use crate::case::{Case, from_net, number};
use original::{Character, State};
use std::panic::catch_unwind;

const LINE_LENGTH: usize = 361;
const HOOK: usize = 4;

#[test]
fn lines_have_one_length() {
    for case in all_cases() {
        assert_eq!(case.text().len(), LINE_LENGTH);
    }
}

#[test]
fn every_hook_is_given_and_made() {
    let (mut given, mut made) = (Vec::new(), Vec::new());
    for case in all_cases() {
        match case {
            Case::State(state) => given.push(state.words()[HOOK]),
            Case::Record(core) => made.push(from_net(core).words()[HOOK]),
        }
    }
    for hook in 0..8 {
        assert!(given.contains(&hook) && made.contains(&hook));
    }
}

#[test]
fn the_original_panics_where_a_tick_is_refused() {
    for state in all_states() {
        let panics = catch_unwind(|| Character::from(state).to_net()).is_err();
        assert_eq!(panics, number(state) == 10);
    }
}

#[test]
fn a_state_is_read_back_as_it_was() {
    for state in all_states() {
        let read = State::from(Character::from(state));
        assert_eq!(read.words(), state.words());
    }
}

fn all_states() -> Vec<State> {
    let state_of = |case| match case {
        Case::State(state) => Some(state),
        Case::Record(_) => None,
    };
    all_cases().into_iter().filter_map(state_of).collect()
}

//! What a server expects of the types that it keeps: they go to any thread, are copied and
//! compared, and begin fresh.

use ponguriena::{
    Area, Buttons, CharacterCore, CharacterId, HookState, Map, Nearest, Passed, PassedAlong,
    PlayerInput, Records, Refusal, Role, Run, Screen, Sender, Totals, Trial, Tuning, Way, World,
};
use std::fmt::Debug;
use std::hash::Hash;

fn of_any_thread<T: Send + Sync + Debug + Eq>() {}

fn kept<T: Clone + Send + Sync + Debug + Eq>() {}

fn a_key<T: Copy + Hash + Ord>() {}

#[test]
fn what_is_kept_goes_to_any_thread() {
    kept::<World>();
    kept::<Records>();
    kept::<Sender>();
    kept::<Screen>();
    kept::<Passed>();
    kept::<PassedAlong>();
    kept::<Trial>();
    kept::<Run>();
    kept::<Nearest>();
    kept::<Way>();
    kept::<Buttons>();
    kept::<Role>();
    kept::<Refusal>();
    kept::<CharacterId>();
    kept::<CharacterCore>();
    kept::<PlayerInput>();
    kept::<HookState>();
    kept::<Tuning>();
    kept::<Map>();
    kept::<Area>();
}

/// They borrow their map for writing, so there are no two of them.
#[test]
fn totals_go_to_any_thread() {
    of_any_thread::<Totals>();
}

#[test]
fn ids_are_keys() {
    a_key::<CharacterId>();
}

#[test]
fn by_default_all_is_fresh() {
    assert_eq!(World::default(), World::fresh());
    assert_eq!(Sender::default(), Sender::fresh());
    assert_eq!(Screen::default(), Screen::fresh());
}

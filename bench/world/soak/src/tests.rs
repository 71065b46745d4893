//! That the soak sees what it is to see, and is not lazy.

mod fences;

use crate::Soak;
use crate::asks;
use crate::function::{ALL, Function};
use crate::played::{Compared, Played};
use crate::server::Server;
use crate::stops::{hush, unless_it_stops};
use crate::tally::Tally;
use harness::SEATS;
use harness::encoding::{WORLD_NUMBERS, encoded};

const CALLS: u64 = 200_000;

#[test]
fn every_function_is_declared_and_every_declared_one_called() {
    let declared = include_str!("../../../../library/src/ffi.rs");
    let lines = declared.lines().filter_map(|line| {
        let (_, name) = line.split_once("fn ponguriena_")?;
        name.split_once('(').map(|(name, _)| name)
    });
    let names: Vec<&str> = lines.collect();
    assert_eq!(names.len(), ALL.len());
    for (place, (function, name, _)) in ALL.iter().enumerate() {
        assert_eq!(*function as usize, place);
        assert!(names.contains(name), "{name}");
    }
}

#[test]
fn a_seed_plays_the_same_again() {
    let played = |seed| {
        let mut soak = Soak::seeded(seed);
        soak.play(CALLS / 50).expect("no difference");
        let world = *soak.server().world.array::<WORLD_NUMBERS>();
        (soak.tally.clone(), soak.course().clone(), world)
    };
    assert_eq!(played(3), played(3));
    assert_ne!(played(3), played(4));
}

#[test]
fn everything_comes_often() {
    hush();
    let mut soak = Soak::seeded(1);
    soak.play(CALLS).expect("no difference");
    assert_eq!(soak.tally.missing(), []);
    assert_eq!(soak.course().crowd, SEATS);
    assert!(soak.course().overwritten > 100 && soak.course().removed > 100);
}

/// Any one of the numbers that were to be left.
#[test]
fn a_world_that_differs_is_seen() {
    let mut server = Server::new();
    let expected = encoded(&harness::World::fresh());
    crate::fresh::play(&mut server, Function::Fresh, None).expect("no difference");
    assert!(server.world.expect(&expected).is_ok());
    for place in 0..WORLD_NUMBERS {
        let mut other = expected;
        other[place] ^= 1;
        let what = server.world.expect(&other).expect_err("a difference");
        assert!(
            what.to_string()
                .starts_with(&format!("world, number {place}:"))
        );
    }
}

/// And each of the others that a step writes.
#[test]
fn what_a_step_leaves_differently_is_seen() {
    let mut soak = Soak::seeded(5);
    soak.play(CALLS / 50).expect("no difference");
    let server = soak.server();
    let left = asks::lent(server);
    assert!(asks::compare(server, &left).is_ok());
    for buffer in 0..left.buffers.len() {
        let mut other = left.clone();
        *other.buffers[buffer].last_mut().expect("some") ^= 1;
        assert!(asks::compare(server, &other).is_err());
    }
    let count = left.count ^ 1;
    let other = compare_world::lent_asks::Lent { count, ..left };
    assert!(asks::compare(server, &other).is_err());
}

#[test]
fn an_answer_that_never_comes_is_missed() {
    let mut tally = Tally::default();
    let all = ALL.iter().map(|(_, _, answers)| answers.len()).sum();
    assert_eq!(tally.missing().len(), all);
    let added = tally.add(Played::of(Function::Step, 9, Compared::Whole));
    assert_eq!(added, Ok(()));
    assert_eq!(tally.missing().len(), all - 1);
}

#[test]
fn an_answer_that_may_not_come_is_told() {
    let mut tally = Tally::default();
    for answer in [3, 6, 10, 18, u32::MAX] {
        let added = tally.add(Played::of(Function::Step, answer, Compared::Whole));
        assert_eq!(added, Err(format!("step answered {answer}")));
    }
}

#[test]
fn who_stops_is_not_compared_with() {
    hush();
    assert_eq!(unless_it_stops(|| 7), Some(7));
    assert_eq!(
        unless_it_stops(|| -> i32 { panic!("as libtw2 might") }),
        None
    );
}

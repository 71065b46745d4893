//! That the sequences are worth comparing.

use crate::lent_asks::{LENGTHS, drawn_turn};
use crate::sequences::drawn;
use crate::{searches, trials};
use harness::draw::FIRST_SEATS;
use harness::roles::Role;
use harness::{Call, Published, SEATS};
use reference::Xorshift;
use std::collections::BTreeSet;

const SEQUENCES: u64 = 200;
const TURNS: usize = 40;
const WORLDS: u64 = 40;

#[test]
fn every_answer_of_a_call_is_drawn() {
    let lines = (0..SEQUENCES).flat_map(|number| drawn(1, number).lines);
    let answers: BTreeSet<u32> = lines.map(|line| line.number()).collect();
    assert_eq!(answers, [0, 1, 2, 3, 4, 5, 7, 8, 9, 16].into());
}

/// Everybody is there at once; every id holds somebody and is held, in hooks that cross the
/// sixteenth too, and somebody with every id leaves.
#[test]
fn every_seat_is_drawn() {
    let (mut counts, mut holds, mut left) = (BTreeSet::new(), BTreeSet::new(), BTreeSet::new());
    for line in (0..4 * SEQUENCES).flat_map(|number| drawn(4, number).lines) {
        match (line.call, line.answer) {
            (Call::Step, Ok(told)) => {
                counts.insert(told.records.iter().flatten().count());
                holds.extend(pairs(&told));
            }
            (Call::Leave { id }, Ok(_)) => {
                left.insert(id);
            }
            _ => {}
        }
    }
    assert!(counts.contains(&0) && counts.contains(&1) && counts.contains(&SEATS));
    for id in 0..SEATS as i32 {
        assert!(holds.iter().any(|&(holder, _)| holder == id), "{id}");
        assert!(holds.iter().any(|&(_, held)| held == id), "{id}");
        assert!(left.contains(&id), "{id}");
    }
    let first = FIRST_SEATS as i32;
    let crossing = |pair: &&(i32, i32)| (pair.0 < first) != (pair.1 < first);
    assert!(holds.iter().filter(crossing).count() > 100);
}

/// Who holds whom.
fn pairs(told: &Published) -> Vec<(i32, i32)> {
    let records = (0..).zip(told.records);
    let held = records.filter_map(|(id, core)| Some((id, core?.hooked_player)));
    held.filter(|&(_, held)| held >= 0).collect()
}

#[test]
fn steps_are_most_often_accepted() {
    let lines = (0..SEQUENCES).flat_map(|number| drawn(2, number).lines);
    let steps = lines.filter(|line| matches!(line.call, Call::Step));
    let (accepted, refused): (Vec<_>, Vec<_>) = steps.partition(|line| line.number() == 0);
    assert!(accepted.len() > 3 * refused.len());
}

/// One, several and everybody, and some who are held.
#[test]
fn some_are_removed() {
    let lines = (0..SEQUENCES).flat_map(|number| drawn(3, number).lines);
    let steps = lines.filter_map(|line| line.answer.ok());
    let removed: Vec<_> = steps.filter(|told| told.removed.contains(&true)).collect();
    let several = removed.iter().filter(|told| told.removed_ids().count() > 1);
    let everybody = |told: &&Published| told.records.map(|core| core.is_some()) == told.removed;
    let counts = [
        removed.len(),
        several.count(),
        removed.iter().filter(everybody).count(),
        removed.iter().filter(|told| held(told)).count(),
    ];
    assert!(counts.iter().all(|&count| count >= 5), "{counts:?}");
}

/// Whether somebody who is removed was held.
fn held(told: &Published) -> bool {
    let mut records = told.records.iter().flatten();
    records.any(|core| usize::try_from(core.hooked_player).is_ok_and(|id| told.removed[id]))
}

/// Each call and each read by the referee, a seat, a board and nobody, with what is lent of
/// the right lengths and of a wrong one.
#[test]
fn every_role_asks_everything() {
    let mut seen = BTreeSet::new();
    for number in 0..SEQUENCES {
        let (sequence, mut random) = (drawn(5, number), Xorshift::seeded(number));
        for _ in 0..TURNS {
            let turn = drawn_turn(&sequence.world, &sequence.map, &mut random);
            let role = Role::of(turn.role).map(|role| match role {
                Role::Seat(_) => "seat",
                Role::Board => "board",
                Role::Referee => "referee",
            });
            let kind = turn.ask.numbers()[0];
            seen.insert((kind, role, turn.lengths == LENGTHS));
        }
    }
    assert_eq!(seen.len(), 9 * 4 * 2, "{seen:?}");
}

#[test]
fn every_answer_of_a_trial_is_drawn() {
    let trials = (0..4 * SEQUENCES).map(|number| trials::drawn(6, number));
    let answers: BTreeSet<u32> = trials.map(|case| case.left().0).collect();
    assert_eq!(answers, [0, 1, 2, 4, 5, 7, 15, 16, 17].into());
}

/// Of each length, and none.
#[test]
fn ways_are_drawn() {
    let mut tally = searches::Tally::default();
    for number in 0..WORLDS {
        let compared = searches::compare(7, number, &mut tally);
        assert!(compared.is_ok());
    }
    let counts = [&tally.ways[..], &[tally.refused]].concat();
    assert!(counts.iter().all(|&count| count > 5), "{counts:?}");
}

#[test]
fn a_seed_gives_the_same_sequences_again() {
    let calls = |seed| {
        drawn(seed, 3)
            .lines
            .into_iter()
            .map(|line| line.call.numbers())
    };
    assert!(calls(7).eq(calls(7)));
    assert!(!calls(7).eq(calls(8)));
}

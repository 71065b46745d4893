//! That the sequences are what the vectors are meant to hold.

mod messages;
mod removals;

use crate::{SentLine, all_sequences, sent_lines};
use harness::sending::{MESSAGE_NUMBERS, Passed, SENDER_NUMBERS, encoded_screen, encoded_sender};
use harness::tunings::TUNINGS;
use harness::{Call, Published, SEATS};
use libtw2_gamenet::snap_obj::CharacterCore;
use original::{CORE_NUMBERS, Hook, State, core_numbers};
use std::collections::BTreeSet;

const LINE_LENGTH: usize = 189;
const MOST_LINES: usize = 2_400;
const MOST_BYTES: usize = 460_000;

/// An accepted step, with what it passed along.
struct Step<'a> {
    line: &'a SentLine<'a>,
    published: Published,
    passed: &'a [Passed],
}

fn each_line(mut check: impl FnMut(&SentLine)) {
    for sequence in all_sequences() {
        sent_lines(&sequence).iter().for_each(&mut check);
    }
}

fn each_step(mut check: impl FnMut(Step)) {
    each_line(|line| {
        if let (Call::Step, Ok(sent)) = (line.line.call, &line.answer) {
            check(Step {
                line,
                published: sent.published,
                passed: &sent.passed,
            });
        }
    });
}

impl Step<'_> {
    /// Whose record the step took, and the record.
    fn taken(&self) -> Vec<(usize, [i32; CORE_NUMBERS])> {
        let record = |core: CharacterCore| core_numbers(core);
        let records = self.published.records.into_iter().enumerate();
        let taken = records.filter_map(|(id, core)| Some((id, record(core?))));
        taken.collect()
    }

    fn has_message(&self, id: usize) -> bool {
        let is = |passed: &Passed| matches!(passed, Passed::Message { id: whose, .. } if *whose as usize == id);
        self.passed.iter().any(is)
    }
}

#[test]
fn lines_have_one_length_and_are_not_too_many() {
    let mut count = 0;
    each_line(|line| {
        assert_eq!(line.text().len(), LINE_LENGTH);
        count += 1;
    });
    assert!(count < MOST_LINES);
    assert!(count * (LINE_LENGTH + 1) < MOST_BYTES);
}

/// Those that the world gives by itself.
#[test]
fn every_call_gives_just_its_answers() {
    let mut given = BTreeSet::new();
    each_line(|line| {
        let answer = line.answer.as_ref().map_or_else(|no| no.number(), |_| 0);
        assert_eq!(answer, line.line.number());
        given.insert((line.line.call.numbers()[0], answer));
    });
    let answers: [(i32, &[u32]); 5] = [
        (1, &[0, 1, 2, 4, 5, 7]),
        (2, &[0, 2, 8]),
        (3, &[0, 2, 8]),
        (4, &[0, 1, 9]),
        (5, &[0, 3, 16]),
    ];
    let expected = answers
        .iter()
        .flat_map(|&(code, numbers)| numbers.iter().map(move |&number| (code, number)));
    assert_eq!(given, expected.collect());
}

/// Also a refused call that finds copies on both sides.
#[test]
fn refused_calls_and_others_pass_nothing_along() {
    let mut refused = BTreeSet::new();
    each_line(|line| {
        let before = encoded_sender(&line.before.sender);
        let nothing = line.answer.is_err()
            || matches!(line.line.call, Call::Join { .. } | Call::Input { .. });
        assert_eq!(line.passed().is_empty(), nothing);
        if nothing {
            assert_eq!(encoded_sender(&line.after.sender), before);
        }
        if line.answer.is_err() && before != [0; SENDER_NUMBERS] {
            refused.insert(line.line.number());
        }
    });
    assert_eq!(refused, [1, 2, 3, 4, 5, 7, 8, 9, 16].into());
}

/// Of everybody who is still there, and both sides have the same copies.
#[test]
fn the_screen_shows_what_the_step_took() {
    let mut count = 0;
    each_step(|step| {
        let after = &step.line.after;
        let copies = &encoded_screen(&after.screen)[TUNINGS..];
        assert_eq!(copies, encoded_sender(&after.sender));
        for (id, record) in step.taken() {
            let shown = after.screen.shown(id as i32).map(core_numbers);
            assert_eq!(shown.ok(), (!step.published.removed[id]).then_some(record));
            count += 1;
        }
    });
    assert!(count > 2000, "{count}");
}

/// A bare mark with nobody and with somebody, and a message and a removal of every seat.
#[test]
fn the_least_and_the_most_are_passed_along() {
    let mut lengths = BTreeSet::new();
    each_step(|step| {
        lengths.insert((step.taken().len(), step.passed.len()));
        let numbers = step.line.passed().len();
        assert!(numbers <= (1 + 2 * SEATS) * MESSAGE_NUMBERS);
    });
    for expected in [(0, 1), (1, 1), (SEATS, 1 + 2 * SEATS)] {
        assert!(lengths.contains(&expected), "{lengths:?}");
    }
}

/// A tuning comes while a hook flies, and one that changes nothing comes among players;
/// the next step is foreseen.
#[test]
fn tunings_come_in_flight() {
    let mut seen = BTreeSet::new();
    let mut tuned = None;
    each_line(|line| {
        let slots = line.before.world.slots;
        let flies = |id: usize| {
            let hook = State::from(slots[id].character).hook;
            slots[id].present && matches!(hook, Hook::Flying(..))
        };
        match line.line.call {
            Call::Tune { .. } if line.answer.is_ok() => {
                let same = line.after.world.tunings == line.before.world.tunings;
                tuned = Some(((0..SEATS).any(flies), same));
            }
            Call::Step => seen.extend(tuned.take().map(|kind| (kind, line.passed().len()))),
            _ => tuned = None,
        }
    });
    for expected in [((true, false), 1), ((false, true), 1), ((false, false), 1)] {
        assert!(seen.contains(&expected), "{seen:?}");
    }
}

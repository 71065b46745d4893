//! That a message comes for every reason, and that without one it does not come.

use super::{Step, each_step};
use crate::{all_sequences, sent_lines};
use harness::SEATS;
use harness::draw::FIRST_SEATS;
use harness::sending::{MOST_STEPS, Passed, SeatCopy};
use harness::tunings::{HOOK_FIRE_SPEED, PLAYER_COLLISION, TUNINGS};
use original::{CORE_NUMBERS, core_numbers};
use std::collections::BTreeSet;

/// Of one whose record a step took.
struct Seat<'a> {
    step: &'a Step<'a>,
    id: usize,
    record: [i32; CORE_NUMBERS],
    /// As it was before the step.
    copy: SeatCopy,
    stepped: SeatCopy,
}

fn each_seat(mut check: impl FnMut(Seat)) {
    each_step(|step| {
        for (id, record) in step.taken() {
            let copy = step.line.before.sender.copies[id];
            let stepped = with(&step, copy, id, step.line.before.world.tunings);
            check(Seat {
                step: &step,
                id,
                record,
                copy,
                stepped,
            });
        }
    });
}

/// What the step makes of a copy with these tunings.
fn with(step: &Step, copy: SeatCopy, id: usize, tunings: [i32; TUNINGS]) -> SeatCopy {
    copy.stepped(id, &step.line.line.told_map(), tunings)
}

impl Seat<'_> {
    /// The copy after the step, had one tuning been another.
    fn had_been(&self, index: usize, hundredths: i32) -> SeatCopy {
        let mut tunings = self.step.line.before.world.tunings;
        tunings[index] = hundredths;
        with(self.step, self.copy, self.id, tunings)
    }
}

/// There is no copy, the record differs, the copy was refused, it is the 150th step.
#[test]
fn every_reason_occurs_alone() {
    let mut counts = [0; 5];
    each_seat(|seat| {
        let kept = seat.stepped.kept;
        let reasons = [
            !kept,
            kept && core_numbers(seat.stepped.core) != seat.record,
            kept && seat.stepped.refused,
            kept && seat.stepped.steps == MOST_STEPS,
        ];
        let is_due = reasons.contains(&true);
        assert_eq!(seat.step.has_message(seat.id), is_due);
        match reasons.iter().filter(|&&holds| holds).count() {
            0 => counts[4] += 1,
            1 => (0..4).for_each(|place| counts[place] += usize::from(reasons[place])),
            _ => {}
        }
    });
    let least = [100, 300, 3, 3, 1000];
    let enough = counts
        .iter()
        .zip(least)
        .all(|(&count, least)| count >= least);
    assert!(enough, "{counts:?}");
}

/// In the line walk of a hook, in the box walk, and in the player walk.
#[test]
fn copies_are_refused_in_every_walk() {
    let mut counts = [0; 3];
    each_seat(|seat| {
        if seat.stepped.refused {
            let line = !seat.had_been(HOOK_FIRE_SPEED, 0).refused;
            let player = !seat.had_been(PLAYER_COLLISION, 0).refused;
            counts[if line {
                0
            } else if player {
                2
            } else {
                1
            }] += 1;
        }
    });
    assert!(counts.iter().all(|&count| count >= 1), "{counts:?}");
}

/// The first sequence: one stands still, and is sent twice.
#[test]
fn who_stands_is_sent_in_the_1st_and_the_151st_step() {
    let sequence = &all_sequences()[0];
    let lines = sent_lines(sequence);
    let steps = lines[1..].iter().enumerate();
    let sent = steps.filter(|(_, line)| line.passed().len() > 1);
    let numbers: Vec<usize> = sent.map(|(number, _)| number + 1).collect();
    assert_eq!((lines.len(), numbers), (153, vec![1, 151]));
}

/// With nobody else's message, though others stand there too.
#[test]
fn every_edge_is_sent_again_by_its_own_count() {
    let mut seen = BTreeSet::new();
    each_seat(|seat| {
        if seat.stepped.kept && seat.stepped.steps == MOST_STEPS {
            let others = seat.step.taken().len() - 1;
            seen.insert((seat.id, others, seat.step.passed.len()));
        }
    });
    for id in [FIRST_SEATS - 1, FIRST_SEATS, SEATS - 1] {
        assert!(seen.contains(&(id, 2, 2)), "{seen:?}");
    }
}

/// Where some are sent and some are not, on both sides of the sixteenth.
#[test]
fn messages_come_by_rising_id() {
    let mut count = 0;
    each_step(|step| {
        let id = |passed: &Passed| match *passed {
            Passed::Message { id, .. } => Some(id as usize),
            _ => None,
        };
        let ids: Vec<usize> = step.passed.iter().filter_map(id).collect();
        assert!(ids.is_sorted_by(|lower, higher| lower < higher));
        let low = ids.iter().filter(|&&id| id < FIRST_SEATS).count();
        let few = ids.len() < step.taken().len();
        count += usize::from(few && low > 0 && low < ids.len());
    });
    assert!(count >= 10, "{count}");
}

/// What it was told last, though the copy has another input; and where it shows.
#[test]
fn inputs_that_show_in_no_record_are_not_sent() {
    let mut seen = BTreeSet::new();
    each_seat(|seat| {
        let told = seat.step.line.before.world.slots[seat.id].input;
        let directions = [told.direction, seat.copy.input.direction];
        if seat.copy.kept && directions[0] != directions[1] {
            seen.insert(seat.step.has_message(seat.id));
        }
    });
    assert_eq!(seen.len(), 2);
}

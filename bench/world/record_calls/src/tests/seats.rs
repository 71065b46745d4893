//! That every id is met where it matters, and every seat taken.

use super::{all_lines, hook_of, is_step, lines_of};
use crate::seats::{EDGES, seat_sequences};
use crate::sequence::Line;
use harness::draw::FIRST_SEATS;
use harness::{Call, Published, SEATS, World};
use original::{Hook, State};
use std::collections::BTreeSet;

const MOST_LINES: usize = 400;

const LAST: usize = SEATS - 1;

fn seat_lines() -> Vec<(World, Line)> {
    lines_of(seat_sequences())
}

/// Of the accepted steps.
fn published() -> Vec<Published> {
    let answers = seat_lines().into_iter();
    let steps = answers.filter(|(_, line)| is_step(line));
    steps.filter_map(|(_, line)| line.answer.ok()).collect()
}

/// Who holds whom, by the records that were taken.
fn holds(told: &Published) -> Vec<(usize, usize)> {
    let held = |id: usize| usize::try_from(told.records[id]?.hooked_player).ok();
    (0..SEATS).filter_map(|id| Some((id, held(id)?))).collect()
}

#[test]
fn they_are_not_too_many() {
    let count = seat_lines().len();
    assert!(count < MOST_LINES, "{count}");
}

/// Each is refused with 2 only where no seat has it; before it comes and after it has left
/// with 8.
#[test]
fn every_call_names_every_edge() {
    let mut seen = BTreeSet::new();
    for (_, line) in seat_lines() {
        if let Call::Join { id, .. } | Call::Leave { id } | Call::Input { id, .. } = line.call {
            seen.insert((line.call.numbers()[0], id, line.number()));
        }
    }
    for id in EDGES {
        let is_seat = (id as usize) < SEATS;
        for expected in [(1, 0), (2, 0), (2, 8), (3, 0), (3, 8)] {
            let (code, answer) = expected;
            assert_eq!(seen.contains(&(code, id, answer)), is_seat);
        }
        for code in [1, 2, 3] {
            assert_eq!(seen.contains(&(code, id, 2)), !is_seat);
        }
    }
}

/// The first and the last hold each other in one step, and so do ids on both sides of the
/// sixteenth; every edge holds and is held.
#[test]
fn hooks_cross_the_sixteenth() {
    let all: BTreeSet<(usize, usize)> = published().iter().flat_map(holds).collect();
    for pair in [(LAST, 0), (0, LAST), (15, 16), (16, 15)] {
        assert!(all.contains(&pair), "{pair:?}");
    }
    let crossing =
        |&&(holder, held): &&(usize, usize)| (holder < FIRST_SEATS) != (held < FIRST_SEATS);
    assert!(all.iter().filter(crossing).count() > 20);
    for id in EDGES
        .map(|id| id as usize)
        .into_iter()
        .filter(|&id| id < SEATS)
    {
        assert!(all.iter().any(|&(holder, _)| holder == id), "{id}");
        assert!(all.iter().any(|&(_, held)| held == id), "{id}");
    }
    let at_once = |told: &Published| {
        let holds = holds(told);
        holds.contains(&(0, LAST)) && holds.contains(&(LAST, 0))
    };
    assert!(published().iter().any(at_once));
}

/// It would be another one, were the ids the other way round.
#[test]
fn of_two_as_near_the_lower_is_grabbed() {
    let mut count = 0;
    for (before, line) in seat_lines() {
        let Ok(told) = line.answer else {
            continue;
        };
        for (holder, held) in holds(&told) {
            let pos = |id: usize| State::from(before.slots[id].character).pos;
            let as_near = |id: &usize| {
                let mirrored = pos(*id).x == pos(held).x && pos(*id).y == -pos(held).y;
                before.slots[*id].present && *id != held && mirrored && pos(held).y != 0.0
            };
            if let (Hook::Idle, Some(other)) = (hook_of(&before, holder), (0..SEATS).find(as_near))
            {
                assert!(held < other);
                count += 1;
            }
        }
    }
    assert!(count >= 3, "{count}");
}

/// By a leave and by spikes; the holders were lower ids on both sides of the sixteenth.
#[test]
fn the_last_one_is_let_go() {
    let mut seen = BTreeSet::new();
    for (before, line) in seat_lines() {
        let gone = before.slots[LAST].present && !line.after.slots[LAST].present;
        for holder in (0..LAST).filter(|_| gone) {
            let told = line.answer.ok().and_then(|told| told.records[holder]);
            let grabs = told.is_some_and(|core| core.hooked_player == LAST as i32);
            let holds =
                matches!(hook_of(&before, holder), Hook::Grabbed(id, _) if id.0 as usize == LAST);
            if grabs || holds {
                assert!(matches!(hook_of(&line.after, holder), Hook::Retracted));
                seen.insert((is_step(&line), holder < FIRST_SEATS));
            }
        }
    }
    assert_eq!(seen.len(), 4, "{seen:?}");
}

/// In one place, in play, and all of them dead after one step.
#[test]
fn every_seat_is_taken_at_once() {
    let (mut places, mut dead) = (BTreeSet::new(), 0);
    for told in published() {
        let mut records: Vec<(i32, i32)> = Vec::new();
        records.extend(told.records.iter().flatten().map(|core| (core.x, core.y)));
        if records.len() == SEATS {
            places.insert(records.into_iter().collect::<BTreeSet<_>>().len());
            dead += usize::from(told.removed_ids().count() == SEATS);
        }
    }
    assert!(places.contains(&1) && places.contains(&SEATS), "{places:?}");
    assert_eq!(dead, 1);
}

/// What is recorded besides names the first seats alone, or none.
#[test]
fn others_name_the_first_seats() {
    let (mut others, count) = (all_lines(), seat_lines().len());
    others.truncate(others.len() - count);
    for (_, line) in others {
        if let Call::Join { id, .. } | Call::Leave { id } | Call::Input { id, .. } = line.call {
            assert!(!(FIRST_SEATS as i32..SEATS as i32).contains(&id));
        }
    }
}

//! That the sequences are what the vectors are meant to hold.

mod holds;
mod seats;
mod spikes;

use crate::all_sequences;
use crate::sequence::{Line, Sequence};
use harness::draw::is_clear;
use harness::tunings::{PLAYER_COLLISION, tuning_of};
use harness::{Call, NOTHING, Refusal, Rules, SEATS, Slots, World};
use original::{Hook, State};
use std::collections::BTreeSet;
use tile_map::maps::open;

const LINE_LENGTH: usize = 180;

/// With the byte that ends each line.
const MOST_BYTES: usize = 1_500_000;

fn all_lines() -> Vec<(World, Line)> {
    lines_of(all_sequences())
}

/// Each line with the world before it.
fn lines_of(sequences: Vec<Sequence>) -> Vec<(World, Line)> {
    let mut lines = Vec::new();
    for sequence in sequences {
        let mut world = World::fresh();
        for line in sequence.lines {
            let after = line.after.clone();
            lines.push((world, line));
            world = after;
        }
    }
    lines
}

fn state(slots: &Slots, id: usize) -> [u32; 12] {
    State::from(slots[id].character).words()
}

fn hook_of(world: &World, id: usize) -> Hook {
    State::from(world.slots[id].character).hook
}

fn is_step(line: &Line) -> bool {
    matches!(line.call, Call::Step)
}

#[test]
fn lines_have_one_length_and_are_not_too_many() {
    let lines = all_lines();
    assert!(
        lines
            .iter()
            .all(|(_, line)| line.text().len() == LINE_LENGTH)
    );
    assert!(lines.len() * (LINE_LENGTH + 1) < MOST_BYTES);
}

#[test]
fn every_call_gives_just_its_answers() {
    let given: BTreeSet<(i32, u32)> = all_lines()
        .iter()
        .map(|(_, line)| (line.call.numbers()[0], line.number()))
        .collect();
    let answers: [(i32, &[u32]); 5] = [
        (1, &[0, 1, 2, 4, 5, 7]),
        (2, &[0, 2, 8]),
        (3, &[0, 2, 8]),
        (4, &[0, 1, 9]),
        (5, &[0, 3, 16]),
    ];
    let expected = answers
        .iter()
        .flat_map(|&(code, numbers)| numbers.iter().map(move |&number| (code, number)));
    assert_eq!(given, expected.collect());
}

/// All refusals that fit, found one by one.
fn fitting(world: &World, line: &Line) -> Vec<u32> {
    let sides = (line.map.width as u32, line.map.height as u32);
    let mut numbers = vec![(Refusal::Map, line.sides != sides)];
    match line.call {
        Call::Join { id, x, y } => {
            let join = |world: &World, id, x, y| world.clone().join(&open(), id, x, y).err();
            let fresh = World::fresh();
            let solid = !is_clear(&line.map, x, y);
            numbers.extend([
                (Refusal::Id, join(&fresh, id, 0, 0).is_some()),
                (Refusal::Place, join(&fresh, 0, x, y).is_some()),
                (Refusal::NotClear, solid),
                (
                    Refusal::Present,
                    join(world, id, 0, 0) == Some(Refusal::Present),
                ),
            ]);
        }
        Call::Step => {
            let too_far = world.clone().step(&line.map).is_err();
            numbers.push((Refusal::TooFar, too_far));
        }
        _ => return Vec::new(),
    }
    numbers.retain(|(_, fits)| *fits);
    numbers
        .iter()
        .map(|(refusal, _)| refusal.number())
        .collect()
}

#[test]
fn the_lowest_of_every_two_refusals_is_given() {
    let mut pairs = BTreeSet::new();
    for (world, line) in all_lines() {
        // Other shapes of as many bytes are maps too.
        let shape = line.sides.0.checked_mul(line.sides.1);
        if shape == Some(line.map.tiles.len() as u32) && line.sides.0 != line.map.width as u32 {
            continue;
        }
        let numbers = fitting(&world, &line);
        if let Some(&lowest) = numbers.first() {
            assert_eq!(line.number(), lowest);
            pairs.extend(numbers[1..].iter().map(|&other| (lowest, other)));
        }
    }
    let expected = [
        (1, 2),
        (1, 4),
        (1, 5),
        (1, 7),
        (1, 9),
        (2, 4),
        (2, 5),
        (4, 5),
        (4, 7),
        (5, 7),
    ];
    assert_eq!(pairs, expected.into());
}

#[test]
fn every_hook_occurs_after_a_step() {
    let mut hooks = BTreeSet::new();
    for (_, line) in all_lines() {
        if is_step(&line) {
            hooks.extend((0..SEATS).map(|id| state(&line.after.slots, id)[4]));
        }
    }
    assert_eq!(hooks, (0..8).collect());
}

/// The holders and whom they hold.
fn holds(world: &World) -> Vec<(usize, usize)> {
    let hold = |id: usize| match hook_of(world, id) {
        Hook::Grabbed(held, _) => Some((id, held.0 as usize)),
        _ => None,
    };
    (0..SEATS).filter_map(hold).collect()
}

/// By lower and by higher ids; a hook on another stays as it was.
#[test]
fn leavers_are_released() {
    let mut counts = [0; 3];
    for (before, line) in all_lines() {
        let Call::Leave { id } = line.call else {
            continue;
        };
        for (holder, held) in holds(&before) {
            if line.answer.is_err() || (holder != id as usize && held != id as usize) {
                assert_eq!(
                    state(&line.after.slots, holder),
                    state(&before.slots, holder)
                );
                counts[0] += 1;
            } else if held == id as usize {
                assert!(matches!(hook_of(&line.after, holder), Hook::Retracted));
                counts[if holder < held { 1 } else { 2 }] += 1;
            }
        }
    }
    assert!(counts.iter().all(|&count| count >= 5), "{counts:?}");
}

#[test]
fn nobody_absent_is_held() {
    for (_, line) in all_lines() {
        let there = |&(_, held): &(usize, usize)| line.after.slots[held].present;
        assert!(holds(&line.after).iter().all(there));
    }
}

/// The slots when the step ended, and whether all had ticked by then.
fn where_refused(world: &World, line: &Line) -> (Slots, bool) {
    let rules = Rules {
        map: &line.map,
        tuning: &tuning_of(world.tunings),
    };
    let mut slots = world.slots;
    for id in (0..SEATS).filter(|&id| world.slots[id].present) {
        match rules.ticked(&mut slots, id) {
            Ok(me) => slots[id].character = me,
            Err(_) => return (slots, false),
        }
    }
    for id in (0..SEATS).filter(|&id| world.slots[id].present) {
        match rules.moved(&mut slots, id) {
            Ok(mut me) => {
                me.quantize();
                slots[id].character = me;
            }
            Err(_) => return (slots, true),
        }
    }
    panic!("no walk is too long");
}

/// Who has another place had moved already.
#[test]
fn refused_steps_had_changed_others() {
    let mut counts = [0; 2];
    for (world, line) in all_lines() {
        if line.number() != Refusal::TooFar.number() {
            continue;
        }
        let (slots, moving) = where_refused(&world, &line);
        let words = if moving { 0..2 } else { 0..12 };
        let changed = |id: &usize| {
            state(&slots, *id)[words.clone()] != state(&world.slots, *id)[words.clone()]
        };
        counts[usize::from(moving)] += usize::from((0..SEATS).any(|id| changed(&id)));
        let same = |id| state(&line.after.slots, id) == state(&world.slots, id);
        assert!((0..SEATS).all(same));
    }
    assert!(counts.iter().all(|&count| count >= 5), "{counts:?}");
}

/// In the line walk of a tick, the box walk of a move and the player walk of a move.
#[test]
fn every_walk_is_refused() {
    let mut counts = [0; 3];
    for (world, line) in all_lines() {
        if line.number() != Refusal::TooFar.number() {
            continue;
        }
        let mut apart = world.clone();
        apart.tunings[PLAYER_COLLISION] = 0;
        let (_, moving) = where_refused(&world, &line);
        let walk = match (moving, apart.step(&line.map)) {
            (false, _) => 0,
            (true, Err(_)) => 1,
            (true, Ok(_)) => 2,
        };
        counts[walk] += 1;
    }
    assert!(counts.iter().all(|&count| count >= 2), "{counts:?}");
}

#[test]
fn steps_have_nobody_and_everybody() {
    let count = |world: &World| world.slots.iter().filter(|slot| slot.present).count();
    let lines = all_lines();
    let steps = lines.iter().filter(|(_, line)| is_step(line));
    let counts: BTreeSet<usize> = steps.map(|(world, _)| count(world)).collect();
    assert!(counts.contains(&0) && counts.contains(&1) && counts.contains(&SEATS));
}

/// Of one who is dragged so fast that nothing more fits.
#[test]
fn the_largest_velocity_is_published() {
    let largest = |line: &Line| {
        let published = line.answer.unwrap_or(NOTHING);
        let mut records = published.records.into_iter().flatten();
        records.any(|record| record.vel_x == i32::MAX)
    };
    assert!(all_lines().iter().any(|(_, line)| largest(line)));
}

#[test]
fn every_jump_flag_occurs() {
    let mut flags = BTreeSet::new();
    for (_, line) in all_lines() {
        flags.extend((0..SEATS).map(|id| state(&line.after.slots, id)[9]));
    }
    assert_eq!(flags, (0..4).collect());
}

/// Each mark follows each, and a refused step finds both.
#[test]
fn marks_come_and_go() {
    let mut seen = BTreeSet::new();
    for (before, line) in all_lines().iter().filter(|(_, line)| is_step(line)) {
        for id in 0..SEATS {
            let (was, is) = (before.slots[id], line.after.slots[id]);
            if was.present {
                seen.insert((line.answer.is_ok(), was.grounded, is.grounded));
            }
        }
    }
    let refused = [(false, false, false), (false, true, true)];
    let accepted = [false, true].map(|was| [false, true].map(|is| (true, was, is)));
    let expected = refused.into_iter().chain(accepted.into_iter().flatten());
    assert_eq!(seen, expected.collect());
}

//! That the searches are worth recording.

use crate::sequence::{Asked, Search, SearchLine};
use crate::{SearchSequence, all_sequences};
use harness::World;
use harness::encoding::encoded;
use harness::search::{Buttons, lists};
use std::collections::{BTreeMap, BTreeSet};
use tile_map::Map;

/// With the world that each is asked in.
fn searches(sequences: &[SearchSequence]) -> Vec<(&SearchLine, Search, &World)> {
    let mut searches = Vec::new();
    for line in sequences.iter().flat_map(|sequence| &sequence.lines) {
        if let Asked::Search(search) = line.asked {
            searches.push((line, search, &line.after));
        }
    }
    searches
}

#[test]
fn every_answer_is_recorded() {
    let sequences = all_sequences();
    let mut answers = BTreeMap::new();
    for (line, ..) in searches(&sequences) {
        *answers.entry(line.number).or_insert(0) += 1;
    }
    let numbers: Vec<u32> = answers.keys().copied().collect();
    assert_eq!(numbers, [0, 1, 2, 8, 13, 17], "{answers:?}");
    assert!(answers[&0] > 150, "{answers:?}");
}

/// None, one, two and three steps, each often; and every button first, second and third.
#[test]
fn ways_of_all_kinds() {
    let sequences = all_sequences();
    let mut lengths = BTreeMap::new();
    let mut buttons = BTreeSet::new();
    for (line, search, world) in searches(&sequences) {
        if let Ok(way) = search.answer(&search.lent(&encoded(world)), &line.told_map()) {
            *lengths.entry(way[0]).or_insert(0) += 1;
            let steps = way[1..].chunks(2).take(way[0] as usize).enumerate();
            buttons.extend(steps.map(|(at, step)| (at, step.to_vec())));
        }
    }
    let counts: Vec<usize> = lengths.values().copied().collect();
    assert_eq!(lengths.keys().copied().collect::<Vec<i32>>(), [0, 1, 2, 3]);
    assert!(counts.iter().all(|&count| count > 20), "{lengths:?}");
    assert_eq!(buttons.len(), 3 * 6, "{buttons:?}");
}

/// Several lists lead to the place; a list is refused or loses the id before its last step; the
/// last step of the way that is told loses it.
#[test]
fn lists_of_all_kinds() {
    let sequences = all_sequences();
    let (mut several, mut cut_off, mut lost) = (0, 0, 0);
    for (line, Search { id, place, .. }, world) in searches(&sequences) {
        let (map, lists) = (&line.told_map(), lists());
        let Ok(found) = world.search(map, id, place) else {
            continue;
        };
        let ends = lists.iter().map(|list| world.place_after(map, id, list));
        let ends: Vec<_> = ends.collect();
        several += usize::from(ends.iter().filter(|&&end| end == Some(place)).count() > 1);
        cut_off += usize::from(ends.contains(&None));
        lost += usize::from(found.is_some_and(|way| loses(world, map, id, &way)));
    }
    let counts = [several, cut_off, lost];
    assert!(counts.iter().all(|&count| count >= 10), "{counts:?}");
}

/// Whether the id is not there any more after that way.
fn loses(world: &World, map: &Map, id: i32, way: &[Buttons]) -> bool {
    let mut world = world.clone();
    for buttons in way {
        let stored = world.stored_input(id).expect("present");
        world.input(id, buttons.input(stored)).expect("present");
        world.step(map).expect("short walks");
    }
    !world.slots[id as usize].present
}

#[test]
fn all_lines_have_one_length() {
    let sequences = all_sequences();
    let lines = sequences.iter().flat_map(|sequence| &sequence.lines);
    let lengths: BTreeSet<usize> = lines.map(|line| line.text().len()).collect();
    assert_eq!(lengths, [189].into());
}

//! That all there is about deadly tiles occurs.

use super::{all_lines, hook_of, is_step, lines_of, state};
use crate::digest::{FACTOR, MODULUS, published_digest};
use crate::sequence::Line;
use crate::spikes::spike_sequences;
use harness::draw::FIRST_SEATS;
use harness::tunings::PLAYER_COLLISION;
use harness::{Call, Published, Refusal, SEATS, World};
use libtw2_gamenet::snap_obj::CharacterCore;
use original::{Hook, State, input_numbers, vec2};
use std::collections::BTreeSet;
use tile_map::Map;

type Place = (i32, i32);

/// By their signs.
const CORNERS: [Place; 4] = [(-1, -1), (1, -1), (-1, 1), (1, 1)];

/// How far a corner is from the middle, and how far below it the ground is looked for.
const ASIDE: i32 = 14;
const BELOW: i32 = 19;

/// An accepted step.
struct Step {
    before: World,
    line: Line,
    published: Published,
}

fn steps_of(lines: Vec<(World, Line)>) -> Vec<Step> {
    let step = |(before, line): (World, Line)| {
        let published = line.answer.ok().filter(|_| is_step(&line))?;
        Some(Step {
            before,
            line,
            published,
        })
    };
    lines.into_iter().filter_map(step).collect()
}

fn spiked_steps() -> Vec<Step> {
    steps_of(lines_of(spike_sequences()))
}

impl Step {
    /// The records with their ids, and whether each was removed.
    fn records(&self) -> Vec<(usize, CharacterCore, bool)> {
        let told = |id: usize| Some((id, self.published.records[id]?, self.published.removed[id]));
        (0..SEATS).filter_map(told).collect()
    }

    fn collision(&self) -> bool {
        self.before.tunings[PLAYER_COLLISION] != 0
    }
}

fn is_deadly(map: &Map, x: i32, y: i32) -> bool {
    map.is_deadly(vec2::new(x as f32, y as f32))
}

/// The corners of a box there that are on deadly tiles.
fn deadly_corners(map: &Map, (x, y): Place) -> Vec<Place> {
    let mut corners = CORNERS.to_vec();
    corners.retain(|(right, down)| is_deadly(map, x + ASIDE * right, y + ASIDE * down));
    corners
}

fn kills(map: &Map, place: Place) -> bool {
    !deadly_corners(map, place).is_empty()
}

fn place(world: &World, id: usize) -> Place {
    let pos = State::from(world.slots[id].character).pos;
    (pos.x as i32, pos.y as i32)
}

/// How many are there on spikes.
fn on_spikes(world: &World, map: &Map) -> usize {
    let is_there = |&id: &usize| world.slots[id].present && kills(map, place(world, id));
    (0..SEATS).filter(is_there).count()
}

/// Each of them is as if never there.
#[test]
fn just_those_on_spikes_are_removed() {
    let fresh = World::fresh();
    let mut counts = [0; 2];
    for step in steps_of(all_lines()) {
        let map = step.line.told_map();
        for (id, core, removed) in step.records() {
            assert_eq!(removed, kills(&map, (core.x, core.y)));
            let slot = step.line.after.slots[id];
            assert_eq!(slot.present, !removed);
            if removed {
                assert_eq!(state(&step.line.after.slots, id), state(&fresh.slots, id));
                assert_eq!(input_numbers(slot.input), [0; 5]);
                assert!(!slot.grounded);
            }
            counts[usize::from(removed)] += 1;
        }
    }
    assert!(counts.iter().all(|&count| count >= 100), "{counts:?}");
}

/// And one unit farther none does, with player collision and without.
#[test]
fn every_corner_kills_alone() {
    let (mut corners, mut units) = (BTreeSet::new(), BTreeSet::new());
    for step in spiked_steps() {
        for (_, core, removed) in step.records() {
            if let [corner] = deadly_corners(&step.line.map, (core.x, core.y))[..] {
                corners.insert((step.collision(), corner));
            }
            for (x, y) in [(1, 0), (-1, 0), (0, 1), (0, -1)] {
                if !removed && kills(&step.line.map, (core.x + x, core.y + y)) {
                    units.insert((step.collision(), (x, y)));
                }
            }
        }
    }
    assert_eq!([corners.len(), units.len()], [8, 8]);
}

/// A join, another call, and a step that is refused leave who is on spikes.
#[test]
fn only_an_accepted_step_removes() {
    let mut seen = BTreeSet::new();
    for (before, line) in lines_of(spike_sequences()) {
        if is_step(&line) && line.answer.is_ok() {
            continue;
        }
        let stays = |id: usize| !before.slots[id].present || line.after.slots[id].present;
        assert!((0..SEATS).all(stays));
        let there = on_spikes(&line.after, &line.map);
        let came = there > on_spikes(&before, &line.map);
        if there > 0 {
            seen.insert((line.call.numbers()[0], line.number(), came));
        }
    }
    let too_far = Refusal::TooFar.number();
    for expected in [(1, 0, true), (3, 0, false), (4, too_far, false)] {
        assert!(seen.contains(&expected), "{seen:?}");
    }
}

/// By lower and by higher ids, and by one who dies too: the record tells the grab. One who
/// dies holds somebody who stays.
#[test]
fn the_dead_are_released() {
    let mut seen = BTreeSet::new();
    for step in spiked_steps() {
        for (holder, core, holder_dies) in step.records() {
            let Ok(held) = usize::try_from(core.hooked_player) else {
                continue;
            };
            let held_dies = step.published.removed[held];
            seen.insert((holder < held, holder_dies, held_dies));
            let hook = hook_of(&step.line.after, holder);
            assert!(match (holder_dies, held_dies) {
                (true, _) => matches!(hook, Hook::Idle),
                (false, true) => matches!(hook, Hook::Retracted),
                (false, false) => matches!(hook, Hook::Grabbed(..)),
            });
        }
    }
    for expected in [
        (true, false, true),
        (false, false, true),
        (true, true, true),
        (false, true, true),
        (true, true, false),
    ] {
        assert!(seen.contains(&expected), "{seen:?}");
    }
}

/// A hold of somebody who stays goes on in the step in which another dies.
#[test]
fn other_holds_stay() {
    let mut count = 0;
    for step in steps_of(all_lines()) {
        for (holder, core, dies) in step.records() {
            let held = usize::try_from(core.hooked_player);
            let stays = held.is_ok_and(|held| !step.published.removed[held]);
            if stays && !dies && step.published.removed_ids().next().is_some() {
                let hook = hook_of(&step.line.after, holder);
                let id = core.hooked_player as u32;
                assert!(matches!(hook, Hook::Grabbed(held, _) if held.0 == id));
                count += 1;
            }
        }
    }
    assert!(count >= 5, "{count}");
}

#[test]
fn one_several_and_everybody_die() {
    let mut seen = BTreeSet::new();
    for step in spiked_steps() {
        let count = step.published.removed_ids().count();
        seen.insert((count, count == step.records().len()));
    }
    for expected in [(0, true), (1, false), (1, true), (3, false), (4, true)] {
        assert!(seen.contains(&expected), "{seen:?}");
    }
    assert!(seen.contains(&(FIRST_SEATS, true)));
}

/// Beyond every side of the map somebody dies and somebody does not.
#[test]
fn points_outside_are_clamped() {
    let mut seen = BTreeSet::new();
    for step in spiked_steps() {
        let extent = step.line.map.extent();
        for (_, core, removed) in step.records() {
            let sides = [
                core.x + ASIDE < 0,
                core.x - ASIDE >= extent.x as i32,
                core.y + ASIDE < 0,
                core.y - ASIDE >= extent.y as i32,
            ];
            let beyond = sides.iter().enumerate().filter(|(_, beyond)| **beyond);
            seen.extend(beyond.map(|(side, _)| (side, removed)));
        }
    }
    assert_eq!(seen.len(), 8, "{seen:?}");
}

/// On spikes and elsewhere, with nothing of what they were told before.
#[test]
fn the_dead_come_again() {
    let mut seen = BTreeSet::new();
    for sequence in spike_sequences() {
        let mut dead = BTreeSet::new();
        for line in sequence.lines {
            match (line.call, line.answer) {
                (Call::Step, Ok(published)) => dead.extend(published.removed_ids()),
                (Call::Join { id, x, y }, Ok(_)) if dead.contains(&id) => {
                    let slot = line.after.slots[id as usize];
                    assert_eq!(input_numbers(slot.input), [0; 5]);
                    assert!(!slot.grounded);
                    seen.insert(kills(&line.map, (x, y)));
                }
                _ => {}
            }
        }
    }
    assert_eq!(seen.len(), 2);
}

/// Who has one point below on spikes may stand on the other; who has both there falls.
#[test]
fn spikes_are_no_floor() {
    let mut seen = BTreeSet::new();
    for step in spiked_steps() {
        for (id, _, removed) in step.records() {
            let (x, y) = place(&step.before, id);
            let below = [x - ASIDE, x + ASIDE].map(|x| is_deadly(&step.line.map, x, y + BELOW));
            let count = below.iter().filter(|&&deadly| deadly).count();
            if !removed && !kills(&step.line.map, (x, y)) {
                seen.insert((count, step.line.after.slots[id].grounded));
            }
        }
    }
    let expected = [(0, false), (0, true), (1, true), (2, false)];
    assert!(seen.is_superset(&expected.into()), "{seen:?}");
    assert!(!seen.contains(&(2, true)));
}

/// Whether a line there passes a deadly tile.
fn passes_spikes(map: &Map, from: vec2, to: vec2) -> bool {
    let turns = vec2::distance(from, to) as i32;
    let mut points = (0..turns).map(|turn| vec2::mix(from, to, turn as f32 / turns as f32));
    points.any(|point| map.is_deadly(point))
}

/// By somebody who stays, by a hook that holds a wall, and by one that holds somebody.
#[test]
fn spikes_are_passed() {
    let mut counts = [0; 3];
    for step in spiked_steps() {
        let pos = |world: &World, id: usize| State::from(world.slots[id].character).pos;
        for (id, core, removed) in step.records() {
            let to = vec2::new(core.x as f32, core.y as f32);
            let passes = |from: vec2| passes_spikes(&step.line.map, from, to);
            counts[0] += usize::from(!removed && passes(pos(&step.before, id)));
            match (core.hook_state, core.hooked_player) {
                (5, -1) => {
                    let hook = vec2::new(core.hook_x as f32, core.hook_y as f32);
                    counts[1] += usize::from(passes(hook));
                }
                (5, held) => counts[2] += usize::from(passes(pos(&step.before, held as usize))),
                _ => {}
            }
        }
    }
    assert!(counts.iter().all(|&count| count >= 1), "{counts:?}");
}

/// Others find them there: without them they would end elsewhere.
#[test]
fn the_dying_stay_until_the_step_ends() {
    let mut count = 0;
    for step in spiked_steps() {
        let mut without = step.before.clone();
        for id in step.published.removed_ids() {
            without.leave(id).expect("present");
        }
        let published = without.step(&step.line.map).expect("short walks");
        let elsewhere = |&(id, core, removed): &(usize, CharacterCore, bool)| {
            !removed && published.records[id].is_some_and(|other| other.x != core.x)
        };
        count += step.records().iter().filter(|told| elsewhere(told)).count();
    }
    assert!(count >= 2, "{count}");
}

/// Each is one number more.
#[test]
fn a_digest_ends_with_the_dead() {
    for step in spiked_steps() {
        let records = Published {
            removed: [false; SEATS],
            ..step.published
        };
        let with = |digest: u64, id: i32| (digest * FACTOR + id as u64) % MODULUS;
        let ids = step.published.removed_ids();
        let expected = ids.fold(u64::from(published_digest(&records)), with);
        assert_eq!(u64::from(published_digest(&step.published)), expected);
    }
}

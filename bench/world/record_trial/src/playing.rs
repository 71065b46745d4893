//! Drawn trials.

use crate::case::Case;
use crate::tunings::Tunings;
use harness::SEATS;
use harness::draw::{FIRST_TUNINGS, any_id, extreme_tuning, is_clear, place};
use harness::trial::MOST_TUNINGS;
use harness::tunings::ORDINARY;
use record_calls::maps::all;
use reference::Xorshift;
use tile_map::Map;
use tile_map::draw::{below, pick};

/// So many join at most.
const PLAYERS: usize = 6;

/// Rounds over all maps.
const ROUNDS: usize = 2;

const STEPS: usize = 150;

pub fn drawn_cases(random: &mut Xorshift) -> Vec<Case> {
    let maps = all(random);
    let rounds = (0..ROUNDS).flat_map(|_| &maps);
    rounds
        .map(|map| {
            let (players, steps) = (below(random, PLAYERS + 1), below(random, STEPS + 1));
            drawn(map, players, steps as i32, random)
        })
        .collect()
}

/// With so many players at most.
pub fn drawn(map: &Map, players: usize, steps: i32, random: &mut Xorshift) -> Case {
    let mut case = Case::on(map, steps);
    let mut ids = Vec::new();
    for _ in 0..players {
        let id = any_id(SEATS, random);
        let (x, y) = place(map, random);
        if !ids.contains(&id) && is_clear(map, x, y) {
            ids.push(id);
            case = case.player([id, x, y], target(map, random));
        }
    }
    let most = pick(random, &[2, 2, MOST_TUNINGS]);
    let count = 1 + below(random, most);
    let tunings: Vec<Tunings> = (0..count).map(|_| tunings(random)).collect();
    case.under(&tunings)
}

/// Of a tile, or outside the map.
pub fn target(map: &Map, random: &mut Xorshift) -> [i32; 2] {
    let ends = [-1, i32::MIN, i32::MAX, map.width as i32, map.height as i32];
    [map.width, map.height].map(|side| match below(random, 6) {
        0 => pick(random, &ends),
        _ => below(random, side) as i32,
    })
}

/// The game's own with some of them changed, a few to an end.
fn tunings(random: &mut Xorshift) -> Tunings {
    let mut tunings = ORDINARY;
    for _ in 0..below(random, 5) {
        let index = below(random, FIRST_TUNINGS);
        let ordinary = ORDINARY[index];
        tunings[index] = match below(random, 5) {
            0 => extreme_tuning(index, random),
            _ => pick(random, &[0, ordinary / 2, ordinary * 2, -ordinary]),
        };
    }
    tunings
}

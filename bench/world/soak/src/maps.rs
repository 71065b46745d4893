//! The maps that a server may have.

use reference::Xorshift;
use session_texts::maps::{end_map, spiked_map};
use tile_map::Map;
use tile_map::draw::{below, pick, random_map};
use tile_map::walled::{hall, walled};

/// The largest.
const WIDEST: usize = 128;
const HIGHEST: usize = 64;

/// Of one tile, without walls, at the ends of what a map is, with spikes, large, empty; small and
/// walled more often than each of these.
pub fn drawn(random: &mut Xorshift) -> Map {
    match below(random, 10) {
        0 => Map::new(1, 1, vec![pick(random, &[0, 0, 0, 1, 2, 3, 255])]),
        1 => {
            let (width, height) = (1 + below(random, 12), 1 + below(random, 12));
            random_map(width, height, 2, random)
        }
        2 => end_map(random),
        3 | 4 => spiked_map(random),
        5 => walled(WIDEST, HIGHEST, random),
        6 => hall(4 + below(random, 40), 4 + below(random, 30), random),
        _ => walled(6 + below(random, 20), 5 + below(random, 12), random),
    }
}

/// Any length but the right one, for which there is room.
pub fn other_length(right: usize, random: &mut Xorshift) -> usize {
    let others = [0, 1, right.saturating_sub(1), right + 1, 2 * right];
    match pick(random, &others) {
        length if length == right => right + 1,
        length => length,
    }
}

/// Room for every other length.
pub fn room_for(right: usize) -> usize {
    2 * right + 2
}

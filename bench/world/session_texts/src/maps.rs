//! Maps as games have them, and maps at the ends of what a map is.

use reference::Xorshift;
use tile_map::draw::{below, pick};
use tile_map::walled::{SOLID, walled};
use tile_map::{DEADLY, Map};

const WIDEST: usize = 60;
const HIGHEST: usize = 40;

/// A tile in so many is deadly on a map with spikes.
const SPIKES_EVERY: [usize; 3] = [8, 25, 80];

/// Of one row, of one column, and the like.
const ENDS: [(usize, usize); 8] = [
    (1, 1),
    (2, 1),
    (1, 2),
    (64, 1),
    (1, 64),
    (1024, 1),
    (1, 1024),
    (300, 2),
];

/// Walls all around, with platforms and pillars between.
pub fn walled_map(random: &mut Xorshift) -> Map {
    let width = 8 + below(random, WIDEST - 7);
    let height = 6 + below(random, HIGHEST - 5);
    walled(width, height, random)
}

/// The same with spikes, also in the walls.
pub fn spiked_map(random: &mut Xorshift) -> Map {
    let mut map = walled_map(random);
    let one_in = pick(random, &SPIKES_EVERY);
    for tile in &mut map.tiles {
        if below(random, one_in) == 0 {
            *tile = DEADLY;
        }
    }
    map
}

/// One tile in sixteen is any byte, another one solid.
pub fn end_map(random: &mut Xorshift) -> Map {
    let (width, height) = pick(random, &ENDS);
    let tiles = (0..width * height).map(|_| match below(random, 16) {
        0 => random.pattern() as u8,
        1 => pick(random, &SOLID),
        _ => 0,
    });
    Map::new(width, height, tiles.collect())
}

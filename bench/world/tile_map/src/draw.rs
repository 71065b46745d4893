//! What the random cases are drawn with.

use crate::Map;
use original::vec2;
use reference::Xorshift;

/// Points are drawn up to this far outside the map.
const MARGIN: f32 = 40.0;

/// Byte 0 most often, and every byte of one digit that is not solid: 2 is deadly.
const OPEN_TILES: [u8; 20] = [
    0, 0, 0, 0, 0, 2, 2, 4, 4, 5, 6, 7, 8, 9, 10, 11, 12, 13, 14, 15,
];

pub fn below(random: &mut Xorshift, limit: usize) -> usize {
    random.pattern() as usize % limit
}

pub fn pick<T: Copy>(random: &mut Xorshift, list: &[T]) -> T {
    list[below(random, list.len())]
}

pub fn between(random: &mut Xorshift, low: f32, high: f32) -> f32 {
    (low + high) / 2.0 + random.within((high - low) / 2.0)
}

pub fn pair_within(random: &mut Xorshift, limit: f32) -> vec2 {
    vec2::new(random.within(limit), random.within(limit))
}

/// A point in the map or somewhat outside it.
pub fn somewhere(map: &Map, random: &mut Xorshift) -> vec2 {
    let extent = map.extent();
    vec2::new(
        between(random, -MARGIN, extent.x + MARGIN),
        between(random, -MARGIN, extent.y + MARGIN),
    )
}

/// The coordinate where a tile begins, or one of the two floats beside it.
pub fn tile_edge(side: usize, random: &mut Xorshift) -> f32 {
    // A tile begins half a unit early, since halves round up.
    let edge = below(random, side + 1) as f32 * 32.0 - 0.5;
    pick(random, &[edge.next_down(), edge, edge.next_up()])
}

/// Any point when the map has no solid tile.
pub fn solid_middle(map: &Map, random: &mut Xorshift) -> vec2 {
    let middles = map.solid_middles();
    if middles.is_empty() {
        somewhere(map, random)
    } else {
        pick(random, &middles)
    }
}

/// So many of 32 tiles are solid.
pub fn random_map(width: usize, height: usize, share: usize, random: &mut Xorshift) -> Map {
    let tiles = (0..width * height).map(|_| {
        if below(random, 32) < share {
            pick(random, &[1, 3])
        } else {
            pick(random, &OPEN_TILES)
        }
    });
    Map::new(width, height, tiles.collect())
}

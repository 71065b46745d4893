//! Maps as games have them.

use crate::Map;
use crate::draw::{below, pick};
use reference::Xorshift;

/// Most tiles are hookable.
pub const SOLID: [u8; 4] = [1, 1, 1, 3];

/// The first is deadly.
const OPEN: [u8; 7] = [2, 4, 5, 10, 64, 128, 255];

/// A tile in so many is a platform's, a pillar's, or neither solid nor 0.
const PLATFORM_EVERY: usize = 45;
const PILLAR_EVERY: usize = 130;
const OPEN_EVERY: usize = 30;

/// Walls all around, with platforms and pillars between.
pub fn walled(width: usize, height: usize, random: &mut Xorshift) -> Map {
    let mut map = Map::new(width, height, vec![0; width * height]);
    for _ in 0..width * height / OPEN_EVERY {
        let tile = pick(random, &OPEN);
        put(&mut map, below(random, width), below(random, height), tile);
    }
    for _ in 0..1 + width * height / PLATFORM_EVERY {
        let (column, row) = (below(random, width), below(random, height));
        let tile = pick(random, &SOLID);
        (0..2 + below(random, 6)).for_each(|n| put(&mut map, column + n, row, tile));
    }
    for _ in 0..width * height / PILLAR_EVERY {
        let (column, row) = (below(random, width), below(random, height));
        let tile = pick(random, &SOLID);
        (0..2 + below(random, 4)).for_each(|n| put(&mut map, column, row + n, tile));
    }
    put_edge(&mut map, random);
    map
}

/// Walls all around, and nothing between.
pub fn hall(width: usize, height: usize, random: &mut Xorshift) -> Map {
    let mut map = Map::new(width, height, vec![0; width * height]);
    put_edge(&mut map, random);
    map
}

fn put_edge(map: &mut Map, random: &mut Xorshift) {
    let (right, bottom) = (map.width - 1, map.height - 1);
    let [first, second] = [0, 1].map(|_| pick(random, &SOLID));
    for column in 0..map.width {
        put(map, column, 0, first);
        put(map, column, bottom, second);
    }
    for row in 0..map.height {
        put(map, 0, row, second);
        put(map, right, row, first);
    }
}

/// Where the map has such a tile.
fn put(map: &mut Map, column: usize, row: usize, tile: u8) {
    if column < map.width && row < map.height {
        map.tiles[row * map.width + column] = tile;
    }
}

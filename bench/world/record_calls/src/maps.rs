//! The maps on which calls are recorded.

use reference::Xorshift;
use tile_map::Map;
use tile_map::draw::random_map;
use tile_map::maps::{floor, open, pillars, room};

const SIZES: [(usize, usize); 5] = [(8, 8), (16, 4), (4, 16), (64, 1), (1, 1)];

/// So many of 32 tiles are solid.
const SOLID_SHARES: [usize; 3] = [1, 3, 6];

/// Walls at both sides, and steps between them.
pub fn tower() -> Map {
    Map::from_rows(&[
        "1003", "1003", "1003", "1003", "1103", "1003", "1003", "1003", "1033", "1003", "1003",
        "1003", "1103", "1003", "1003", "1313",
    ])
}

/// Of one row, so its walls and its spikes go up and down without end.
pub fn corridor() -> Map {
    let open = "000000000000";
    Map::from_rows(&[&format!("1000{open}{open}2000{open}0001{open}9003")])
}

pub fn drawn() -> Vec<Map> {
    vec![room(), floor(), tower(), corridor(), pillars(), open()]
}

pub fn all(random: &mut Xorshift) -> Vec<Map> {
    let mut maps = drawn();
    for (width, height) in SIZES {
        for share in SOLID_SHARES {
            maps.push(random_map(width, height, share, random));
        }
    }
    maps
}

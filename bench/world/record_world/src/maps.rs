//! The maps on which the calls are recorded.

use reference::Xorshift;
use tile_map::Map;
use tile_map::draw::random_map;

const SIZES: [(usize, usize); 9] = [
    (8, 8),
    (7, 5),
    (5, 7),
    (16, 4),
    (4, 16),
    (64, 1),
    (1, 64),
    (9, 1),
    (1, 9),
];

/// So many of 32 tiles are solid.
const SOLID_SHARES: [usize; 3] = [2, 6, 16];

pub fn open_tile() -> Map {
    Map::from_rows(&["0"])
}

pub fn solid_tile() -> Map {
    Map::from_rows(&["1"])
}

/// A solid tile with open ones all around it.
pub fn pillar() -> Map {
    Map::from_rows(&["000", "010", "000"])
}

pub fn all_maps(random: &mut Xorshift) -> Vec<Map> {
    let mut maps = drawn_maps();
    for (width, height) in SIZES {
        for share in SOLID_SHARES {
            maps.push(random_map(width, height, share, random));
        }
    }
    maps
}

fn drawn_maps() -> Vec<Map> {
    let drawn: [&[&str]; 13] = [
        &["0"],
        &["1"],
        &["2"],
        &["3"],
        &["4"],
        &["10000003"],
        &["3", "0", "2", "0", "4", "1"],
        &["00", "01"],
        &["30", "00"],
        &["000", "010", "000"],
        &["111", "303", "111"],
        &["1111", "3003", "1001", "3331"],
        &[
            "11111111", "10000003", "10000003", "10030003", "10020043", "11000003", "11000003",
            "13333333",
        ],
    ];
    drawn.into_iter().map(Map::from_rows).collect()
}

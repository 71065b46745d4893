//! Texts about as long as a text may be.

use crate::written::{call_text, map_text};
use harness::Call;
use reference::Xorshift;
use session::MOST_BYTES;
use tile_map::Map;
use tile_map::draw::{below, pick};

/// Of large maps, which take two bytes a tile.
const SIDES: [(usize, usize); 4] = [(160, 200), (31, 1024), (1024, 31), (100, 320)];

/// An input fills so many bytes up.
const MOST_FILLED: usize = 40;

pub fn longest(random: &mut Xorshift) -> Vec<u8> {
    large_map(MOST_BYTES, random)
}

pub fn too_long(random: &mut Xorshift) -> Vec<u8> {
    let more = pick(random, &[1, 1, 2, 1000]);
    large_map(MOST_BYTES + more, random)
}

pub fn nearly_longest(random: &mut Xorshift) -> Vec<u8> {
    large_map(MOST_BYTES - 1, random)
}

/// Too long by its calls alone, or just not.
pub fn many_calls(random: &mut Xorshift) -> Vec<u8> {
    let length = MOST_BYTES + below(random, 2);
    let mut text = map_text(&Map::from_rows(&["000", "111"]));
    text += &call_text(Call::Join { id: 1, x: 5, y: 5 });
    let step = call_text(Call::Step);
    while text.len() + 2 * step.len() <= length {
        text += &step;
    }
    fill(text, length)
}

/// Few calls after a map that takes nearly all of the text.
fn large_map(length: usize, random: &mut Xorshift) -> Vec<u8> {
    let (width, height) = pick(random, &SIDES);
    let tile = |_| pick(random, &[0, 0, 0, 0, 0, 2, 4, 9, 1, 3]);
    let tiles = (0..width * height).map(tile).collect();
    let mut map = Map::new(width, height, tiles);
    let calls = [
        Call::Join {
            id: 0,
            x: 40,
            y: 40,
        },
        Call::Join {
            id: 1,
            x: 99,
            y: 40,
        },
        Call::Step,
        Call::Step,
    ];
    let calls = calls.map(call_text).concat();
    let missing = length - map_text(&map).len() - calls.len();
    lengthen(&mut map, missing - MOST_FILLED, random);
    fill(map_text(&map) + &calls, length)
}

/// By so many digits of tiles that had one.
fn lengthen(map: &mut Map, mut digits: usize, random: &mut Xorshift) {
    while digits > 0 {
        let index = below(random, map.tiles.len());
        if map.tiles[index] < 10 {
            map.tiles[index] = if digits > 1 { 100 } else { 10 };
            digits -= digits.min(2);
        }
    }
}

/// An input whose numbers have as many digits as are missing.
fn fill(text: String, length: usize) -> Vec<u8> {
    let shortest = call_text(input(1, 1, 1, 1));
    let more = length - text.len() - shortest.len();
    let ten = |digits: usize| 10i32.pow(digits as u32);
    let parts = [0, 1, 2, 3].map(|part| ten((more + part) / 4));
    let filled = text + &call_text(input(parts[0], parts[1], parts[2], parts[3]));
    assert_eq!(filled.len(), length);
    filled.into_bytes()
}

fn input(a: i32, b: i32, c: i32, d: i32) -> Call {
    Call::from_numbers([3, 0, a, b, c, d, 0]).expect("an input")
}

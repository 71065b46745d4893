//! Boxes for `move_box`.

use crate::case::Case;
use crate::maps::{open_tile, pillar, solid_tile};
use original::{Collision, vec2};
use reference::Xorshift;
use tile_map::Map;
use tile_map::draw::{between, pair_within, pick, solid_middle, somewhere, tile_edge};

type Kind = fn(&Map, &mut Xorshift) -> (vec2, vec2, vec2);

const KINDS: [Kind; 11] = [
    still,
    slow,
    walking,
    fast,
    upright,
    sideways,
    into_wall,
    from_anywhere,
    flush,
    other_size,
    other_size_anywhere,
];

const ORIGIN: vec2 = vec2 { x: 0.0, y: 0.0 };
const CHARACTER: vec2 = vec2 { x: 28.0, y: 28.0 };

const OTHER_SIZES: [(f32, f32); 10] = [
    (0.0, 0.0),
    (1.0, 1.0),
    (64.0, 64.0),
    (27.5, 31.0),
    (100.0, 2.0),
    (-28.0, -28.0),
    (28.0, -28.0),
    (f32::NAN, 28.0),
    (28.0, f32::NAN),
    (28.0, f32::INFINITY),
];

/// A clear position may not be there, so the search for it ends.
const TRIES: usize = 200;

/// One map in so many also has a very fast box: those walks are long.
const FASTEST_EVERY: usize = 3;

const CORNER_LINES: usize = 60;

pub fn box_cases(maps: &[Map], random: &mut Xorshift) -> Vec<Case> {
    let mut cases = Vec::new();
    for (index, map) in maps.iter().enumerate() {
        for kind in KINDS {
            let (pos, vel, size) = kind(map, random);
            cases.push(Case::moved(map, pos, vel, size));
        }
        if index.is_multiple_of(FASTEST_EVERY) {
            let pos = clear_position(map, CHARACTER, random);
            let vel = pair_within(random, 4000.0);
            cases.push(Case::moved(map, pos, vel, CHARACTER));
        }
    }
    cases.extend(even_corners());
    cases.extend(random_corners(random));
    cases.extend(special_values());
    cases.extend(least_velocities());
    cases.extend(limit_velocities());
    cases
}

fn clear_position(mut map: &Map, size: vec2, random: &mut Xorshift) -> vec2 {
    for _ in 0..TRIES {
        let pos = somewhere(map, random);
        if !map.check_box(pos, size) {
            return pos;
        }
    }
    somewhere(map, random)
}

fn still(map: &Map, random: &mut Xorshift) -> (vec2, vec2, vec2) {
    let vel = vec2::new(pick(random, &[0.0, -0.0]), pick(random, &[0.0, -0.0]));
    (somewhere(map, random), vel, CHARACTER)
}

/// Less than one unit: two turns at most.
fn slow(map: &Map, random: &mut Xorshift) -> (vec2, vec2, vec2) {
    let pos = clear_position(map, CHARACTER, random);
    (pos, pair_within(random, 0.9), CHARACTER)
}

fn walking(map: &Map, random: &mut Xorshift) -> (vec2, vec2, vec2) {
    let pos = clear_position(map, CHARACTER, random);
    (pos, pair_within(random, 15.0), CHARACTER)
}

fn fast(map: &Map, random: &mut Xorshift) -> (vec2, vec2, vec2) {
    let pos = clear_position(map, CHARACTER, random);
    (pos, pair_within(random, 120.0), CHARACTER)
}

fn upright(map: &Map, random: &mut Xorshift) -> (vec2, vec2, vec2) {
    let pos = clear_position(map, CHARACTER, random);
    (pos, vec2::new(0.0, random.within(90.0)), CHARACTER)
}

fn sideways(map: &Map, random: &mut Xorshift) -> (vec2, vec2, vec2) {
    let pos = clear_position(map, CHARACTER, random);
    (pos, vec2::new(random.within(90.0), -0.0), CHARACTER)
}

fn into_wall(map: &Map, random: &mut Xorshift) -> (vec2, vec2, vec2) {
    let pos = clear_position(map, CHARACTER, random);
    let way = solid_middle(map, random) - pos;
    (pos, way * between(random, 0.5, 1.5), CHARACTER)
}

fn from_anywhere(map: &Map, random: &mut Xorshift) -> (vec2, vec2, vec2) {
    let pos = solid_middle(map, random) + pair_within(random, 30.0);
    (pos, pair_within(random, 40.0), CHARACTER)
}

/// A corner of the box lies on the edges of tiles.
fn flush(map: &Map, random: &mut Xorshift) -> (vec2, vec2, vec2) {
    let edges = vec2::new(tile_edge(map.width, random), tile_edge(map.height, random));
    let offset = vec2::new(pick(random, &[-14.0, 14.0]), pick(random, &[-14.0, 14.0]));
    (edges + offset, pair_within(random, 3.0), CHARACTER)
}

fn other_size(map: &Map, random: &mut Xorshift) -> (vec2, vec2, vec2) {
    let (width, height) = pick(random, &OTHER_SIZES);
    let size = vec2::new(width, height);
    let pos = clear_position(map, size, random);
    (pos, pair_within(random, 60.0), size)
}

fn other_size_anywhere(map: &Map, random: &mut Xorshift) -> (vec2, vec2, vec2) {
    let (width, height) = pick(random, &OTHER_SIZES);
    let pos = somewhere(map, random);
    (pos, pair_within(random, 20.0), vec2::new(width, height))
}

/// Straight at the corner of a tile: both coordinates reach it in the same turn. The
/// least speed ends exactly on the edge, which belongs to the tile only above and left.
fn even_corners() -> Vec<Case> {
    let mut cases = Vec::new();
    for (side_x, side_y) in [(1.0, 1.0), (1.0, -1.0), (-1.0, 1.0), (-1.0, -1.0)] {
        for speed in [0.25, 0.75, 7.0, 24.5] {
            let pos = vec2::new(47.5 - side_x * 30.25, 47.5 - side_y * 30.25);
            let vel = vec2::new(side_x * speed, side_y * speed);
            cases.push(Case::moved(&pillar(), pos, vel, CHARACTER));
        }
    }
    cases
}

/// Found by search: both velocities end, though a single solid tile blocks only one coordinate.
fn random_corners(random: &mut Xorshift) -> Vec<Case> {
    let mut cases = Vec::new();
    while cases.len() < CORNER_LINES {
        let map = pillar();
        let pos = vec2::new(48.0, 48.0) + pair_within(random, 60.0);
        let vel = pair_within(random, 50.0);
        let clear = !(&map).check_box(pos, CHARACTER);
        let case = Case::moved(&map, pos, vel, CHARACTER);
        if clear && case.answer()[3..] == [0, 0] {
            cases.push(case);
        }
    }
    cases
}

/// One of the six values not-a-number, infinite or too large to square.
fn special_values() -> Vec<Case> {
    let specials = [f32::NAN, f32::INFINITY, f32::NEG_INFINITY, 1e30, -f32::MAX];
    let (pos, vel, size) = (vec2::new(16.0, 15.0), vec2::new(20.0, 23.0), CHARACTER);
    let mut cases = Vec::new();
    for map in [pillar(), Map::from_rows(&["100", "000", "003"])] {
        for x in specials {
            cases.push(Case::moved(&map, vec2::new(x, pos.y), vel, size));
            cases.push(Case::moved(&map, vec2::new(pos.x, x), vel, size));
            cases.push(Case::moved(&map, pos, vec2::new(x, vel.y), size));
            cases.push(Case::moved(&map, pos, vec2::new(vel.x, x), size));
            cases.push(Case::moved(&map, pos, vel, vec2::new(x, size.y)));
            cases.push(Case::moved(&map, pos, vel, vec2::new(size.x, x)));
        }
    }
    let (nan, infinity) = (f32::NAN, f32::INFINITY);
    cases.push(Case::moved(&pillar(), pos, vec2::new(nan, infinity), size));
    cases.push(Case::moved(
        &pillar(),
        pos,
        vec2::new(infinity, -infinity),
        size,
    ));
    cases
}

/// Around the velocity from which on a box moves, away from and into the next tile.
fn least_velocities() -> Vec<Case> {
    let least = 0.00001f32;
    let mut cases = Vec::new();
    for speed in [
        1e-30,
        5e-6,
        least.next_down(),
        least,
        least.next_up(),
        1.2e-5,
    ] {
        // The right edge of the box is at the last float of its tile.
        let pos = vec2::new(17.5f32.next_down(), 49.0);
        cases.push(Case::moved(
            &pillar(),
            pos,
            vec2::new(speed, 0.0),
            CHARACTER,
        ));
        cases.push(Case::moved(
            &pillar(),
            pos,
            vec2::new(speed, speed),
            CHARACTER,
        ));
        cases.push(Case::moved(
            &pillar(),
            pos,
            vec2::new(-speed, 0.0),
            CHARACTER,
        ));
        cases.push(Case::moved(
            &open_tile(),
            ORIGIN,
            vec2::new(0.0, -speed),
            CHARACTER,
        ));
    }
    cases
}

fn limit_velocities() -> Vec<Case> {
    let limit = 65535.5f32;
    let runs = [limit.next_down(), -limit.next_down()];
    let refused = [limit, -limit, limit.next_up(), 65536.0, 1e7, 4e9];
    let mut cases = Vec::new();
    for speed in runs.into_iter().chain(refused) {
        cases.push(Case::moved(
            &open_tile(),
            ORIGIN,
            vec2::new(speed, 0.0),
            CHARACTER,
        ));
        cases.push(Case::moved(
            &pillar(),
            ORIGIN,
            vec2::new(0.0, speed),
            CHARACTER,
        ));
    }
    let slanted = vec2::new(40000.0, 30000.0);
    cases.push(Case::moved(&pillar(), ORIGIN, slanted, CHARACTER));
    cases.push(Case::moved(&solid_tile(), ORIGIN, slanted, CHARACTER));
    cases.push(Case::moved(&solid_tile(), ORIGIN, slanted * 2.0, CHARACTER));
    cases
}

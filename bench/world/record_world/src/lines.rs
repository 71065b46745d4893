//! Lines for `check_line`.

use crate::case::Case;
use crate::maps::{open_tile, pillar, solid_tile};
use original::vec2;
use reference::Xorshift;
use tile_map::Map;
use tile_map::draw::{below, between, pair_within, pick, solid_middle, somewhere, tile_edge};

type Kind = fn(&Map, &mut Xorshift) -> (vec2, vec2);

const KINDS: [Kind; 12] = [
    horizontal,
    vertical,
    diagonal,
    any,
    any_whole,
    along_column,
    along_row,
    short,
    shorter,
    from_wall,
    to_wall,
    leaving,
];

const ORIGIN: vec2 = vec2 { x: 0.0, y: 0.0 };

/// Lengths from which on the walk is refused, and their neighbours.
const LIMIT_LENGTHS: [u32; 7] = [
    0x477f_feff,
    0x477f_ff00,
    0x477f_ff01,
    0x477f_fffe,
    0x477f_ffff,
    0x4780_0000,
    0x4780_0001,
];

pub fn line_cases(maps: &[Map], random: &mut Xorshift) -> Vec<Case> {
    let mut cases = Vec::new();
    for map in maps {
        for kind in KINDS {
            let (from, to) = kind(map, random);
            cases.push(Case::line(map, from, to));
        }
    }
    cases.extend(special_coordinates());
    cases.extend(special_lengths());
    cases.extend(limit_lengths());
    cases.extend(late_hits());
    cases
}

fn horizontal(map: &Map, random: &mut Xorshift) -> (vec2, vec2) {
    let from = somewhere(map, random);
    (from, vec2::new(somewhere(map, random).x, from.y))
}

fn vertical(map: &Map, random: &mut Xorshift) -> (vec2, vec2) {
    let from = somewhere(map, random);
    (from, vec2::new(from.x, somewhere(map, random).y))
}

fn diagonal(map: &Map, random: &mut Xorshift) -> (vec2, vec2) {
    let from = somewhere(map, random);
    let length = random.within(150.0);
    (
        from,
        from + vec2::new(length, pick(random, &[length, -length])),
    )
}

fn any(map: &Map, random: &mut Xorshift) -> (vec2, vec2) {
    (somewhere(map, random), somewhere(map, random))
}

fn any_whole(map: &Map, random: &mut Xorshift) -> (vec2, vec2) {
    let (from, to) = any(map, random);
    let whole = |pair: vec2| vec2::new(pair.x.round(), pair.y.round());
    (whole(from), whole(to))
}

/// Grazes the tiles on one side.
fn along_column(map: &Map, random: &mut Xorshift) -> (vec2, vec2) {
    let (from, to) = any(map, random);
    let x = tile_edge(map.width, random);
    (vec2::new(x, from.y), vec2::new(x, to.y))
}

/// Grazes the tiles above or below.
fn along_row(map: &Map, random: &mut Xorshift) -> (vec2, vec2) {
    let (from, to) = any(map, random);
    let y = tile_edge(map.height, random);
    (vec2::new(from.x, y), vec2::new(to.x, y))
}

/// One or two turns across the edges of tiles.
fn short(map: &Map, random: &mut Xorshift) -> (vec2, vec2) {
    let from = vec2::new(tile_edge(map.width, random), tile_edge(map.height, random));
    (from, from + pair_within(random, 1.5))
}

/// Of length 0, or so short that the squares or the sums lose digits.
fn shorter(map: &Map, random: &mut Xorshift) -> (vec2, vec2) {
    let from = somewhere(map, random);
    let to = vec2::new(from.x.next_up(), from.y);
    pick(random, &[(from, from), (from, to), (to, from)])
}

fn from_wall(map: &Map, random: &mut Xorshift) -> (vec2, vec2) {
    let from = solid_middle(map, random) + pair_within(random, 15.0);
    (from, somewhere(map, random))
}

fn to_wall(map: &Map, random: &mut Xorshift) -> (vec2, vec2) {
    let to = solid_middle(map, random) + pair_within(random, 15.0);
    (somewhere(map, random), to)
}

/// Ends far outside the map on one of the four sides.
fn leaving(map: &Map, random: &mut Xorshift) -> (vec2, vec2) {
    let (from, inside) = any(map, random);
    let extent = map.extent();
    let far = between(random, 100.0, 400.0);
    let to = match below(random, 4) {
        0 => vec2::new(-far, inside.y),
        1 => vec2::new(extent.x + far, inside.y),
        2 => vec2::new(inside.x, -far),
        _ => vec2::new(inside.x, extent.y + far),
    };
    (from, to)
}

/// One of the four coordinates, or two, not-a-number, infinite or too large to square.
fn special_coordinates() -> Vec<Case> {
    let specials = [f32::NAN, f32::INFINITY, f32::NEG_INFINITY, 1e30, -f32::MAX];
    let (from, to) = (vec2::new(16.0, 16.0), vec2::new(80.0, 81.0));
    let mut cases = Vec::new();
    for map in [solid_tile(), pillar()] {
        for x in specials {
            cases.push(Case::line(&map, vec2::new(x, from.y), to));
            cases.push(Case::line(&map, vec2::new(from.x, x), to));
            cases.push(Case::line(&map, from, vec2::new(x, to.y)));
            cases.push(Case::line(&map, from, vec2::new(to.x, x)));
            cases.push(Case::line(&map, vec2::new(x, x), vec2::new(x, x)));
            cases.push(Case::line(&map, vec2::new(x, 48.0), vec2::new(x, 50.0)));
        }
    }
    cases
}

/// Lengths whose squares vanish, or that are just below, at or above a whole number.
fn special_lengths() -> Vec<Case> {
    let lengths = [
        0.0f32, -0.0, 1e-45, 1e-38, 1e-23, 3e-23, 1e-22, 1e-20, 1e-10, 0.5, 1.0, 2.0, 33.0, 64.0,
    ];
    let corner_solid = Map::from_rows(&["300", "000", "001"]);
    let mut cases = Vec::new();
    for length in lengths {
        cases.push(Case::line(&corner_solid, ORIGIN, vec2::new(0.0, length)));
        for map in [pillar(), corner_solid.clone()] {
            // Sums with 0 keep lengths that sums with 40 lose.
            let from = vec2::new(40.0, 0.0);
            cases.push(Case::line(&map, from, vec2::new(40.0, length)));
            if length >= 0.5 {
                let next = vec2::new(40.0, length.next_down());
                cases.push(Case::line(&map, from, next));
            }
        }
    }
    cases
}

fn limit_lengths() -> Vec<Case> {
    let mut cases = Vec::new();
    for length in LIMIT_LENGTHS.map(f32::from_bits) {
        cases.push(Case::line(&open_tile(), ORIGIN, vec2::new(length, 0.0)));
        // In a wall the walk ends with its first turn.
        cases.push(Case::line(&solid_tile(), ORIGIN, vec2::new(length, 0.0)));
        cases.push(Case::line(&solid_tile(), vec2::new(0.0, length), ORIGIN));
        // A right triangle with sides 3, 4 and 5.
        let to = vec2::new(length / 5.0 * 3.0, length / 5.0 * -4.0);
        cases.push(Case::line(&solid_tile(), ORIGIN, to));
    }
    cases
}

/// Long ways outside the map before the wall, or past it.
fn late_hits() -> Vec<Case> {
    let wall = Map::from_rows(&["00001000"]);
    let floor = Map::from_rows(&["0", "0", "3"]);
    let past = vec2::new(240.0, 16.0);
    let under = vec2::new(1e4, 80.0);
    vec![
        Case::line(&wall, vec2::new(-65000.0, 16.0), past),
        Case::line(&wall, vec2::new(65000.0, 16.0), past),
        Case::line(&wall, vec2::new(20000.0, 9.0), vec2::new(-100.0, 1e4)),
        Case::line(&floor, vec2::new(16.0, -30000.0), under),
        Case::line(&floor, vec2::new(-2e4, -2e4), under),
    ]
}

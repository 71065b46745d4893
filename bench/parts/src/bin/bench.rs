//! Time per call, in throughput, of the port and of the reference.

use ponguriena::{Area, CharacterCore, Map, area, packed};
use reference::Xorshift;
use reference::aim_edges::game_ramp;
use reference::area::Rectangle;
use timing::{print_heading, print_row};

const INPUTS: usize = 4096;
const PASSES: usize = 32;

/// The inputs called `game` lie between minus this and this.
const GAME_LIMIT: f32 = 20000.0;

const POSITIVE_INFINITY: u32 = 0x7f80_0000;

/// The sides of the largest map.
const SIDE: u32 = 1024;

const LARGEST: (u32, u32) = (SIDE, SIDE);

/// A value with start, range and curvature.
type Ramp = (f32, [i32; 3]);

/// Prints the row of a function that port and reference name alike.
macro_rules! row {
    ($name:ident, $kind:expr, $inputs:expr) => {
        print_row(
            stringify!($name),
            $kind,
            PASSES,
            $inputs,
            parts::$name,
            reference::$name,
        )
    };
}

fn main() {
    print_heading();
    let mut random = Xorshift::default();
    let floats = inputs(|| random.within(GAME_LIMIT));
    let roots = inputs(|| random.within(GAME_LIMIT).abs());
    let integers = inputs(|| random.within(GAME_LIMIT) as i32);
    print_rows("game", &floats, &roots, &integers);
    let floats = inputs(|| f32::from_bits(random.pattern()));
    let roots = inputs(|| f32::from_bits(random.pattern() % POSITIVE_INFINITY));
    let integers = inputs(|| random.pattern() as i32);
    print_rows("any", &floats, &roots, &integers);
    print_angles("game", &inputs(|| target(&mut random, 21)));
    print_angles("any", &inputs(|| target(&mut random, 0)));
    print_angles("axes", &inputs(|| on_an_axis(&mut random)));
    print_angles("diagonals", &inputs(|| on_a_diagonal(&mut random)));
    print_ramps("game", &inputs(|| game_ramp(&mut random)));
    print_ramps("steep", &inputs(|| steep_ramp(&mut random)));
    print_packed("game", &inputs(|| record(&mut random)));
    let tiles: Vec<u8> = (0..SIDE * SIDE)
        .map(|_| (random.pattern() % 4) as u8)
        .collect();
    let map = Map {
        width: SIDE,
        height: SIDE,
        tiles: &tiles,
    };
    let totals = print_built(&map);
    for (kind, side) in [("1", 1), ("512", SIDE / 2), ("1,024", SIDE)] {
        print_counts(kind, &map, &totals, &inputs(|| square(&mut random, side)));
    }
    for (kind, place, passes) in [("first", 0, 1), ("last", SIDE as i32 - 1, 10_000)] {
        print_changes(kind, passes, &map, &totals, (place, place));
    }
}

/// A target with coordinates of `32 - shift` bits.
fn target(random: &mut Xorshift, shift: u32) -> (i32, i32) {
    let mut coordinate = || random.pattern() as i32 >> shift;
    (coordinate(), coordinate())
}

/// As a player aims who turns by keys: right, left, up or down.
fn on_an_axis(random: &mut Xorshift) -> (i32, i32) {
    let (size, _) = target(random, 21);
    if random.pattern().is_multiple_of(2) {
        (size, 0)
    } else {
        (0, size)
    }
}

fn on_a_diagonal(random: &mut Xorshift) -> (i32, i32) {
    let (size, _) = target(random, 21);
    if random.pattern().is_multiple_of(2) {
        (size, size)
    } else {
        (size, -size)
    }
}

/// A ramp that starts at once, so that a power is always needed.
fn steep_ramp(random: &mut Xorshift) -> Ramp {
    (random.within(GAME_LIMIT).abs(), [0, 200_000, 140])
}

/// A record as a game has them: a place, a speed, an aim, small numbers and a hook.
fn record(random: &mut Xorshift) -> [i32; 15] {
    let mut size = |bits: u32| random.pattern() as i32 >> (32 - bits);
    [
        0,
        size(14),
        size(13),
        size(13),
        size(13),
        size(11),
        size(2),
        size(2),
        -1,
        size(3),
        0,
        size(14),
        size(13),
        size(9),
        size(9),
    ]
}

/// Both ways, since the two take unlike arguments.
fn print_packed(kind: &str, records: &[[i32; 15]]) {
    let cores: Vec<(CharacterCore, [i32; 15])> = records
        .iter()
        .map(|&numbers| (CharacterCore::from_numbers(numbers), numbers))
        .collect();
    print_row(
        "pack",
        kind,
        PASSES,
        &cores,
        |(core, _)| packed::pack(core),
        |(_, numbers)| reference::packed::pack(numbers),
    );
    let bytes: Vec<[u8; 75]> = records
        .iter()
        .map(|&numbers| reference::packed::pack(numbers).0)
        .collect();
    print_row(
        "unpack",
        kind,
        PASSES,
        &bytes,
        |bytes| packed::unpack(&bytes).ok(),
        |bytes| {
            let (numbers, used) = reference::packed::unpack(&bytes).ok()?;
            Some((CharacterCore::from_numbers(numbers), used))
        },
    );
}

/// A square of the largest map, of a given side.
fn square(random: &mut Xorshift, side: u32) -> [i32; 4] {
    let mut place = || (random.pattern() % (SIDE - side + 1)) as i32;
    [place(), place(), side as i32, side as i32]
}

/// The totals of the largest map, one build a round.
fn print_built(map: &Map) -> Vec<u32> {
    let mut totals = vec![0; map.tiles.len()];
    let mut plain = totals.clone();
    print_row(
        "area_build",
        "1,024",
        1,
        &[()],
        |()| area::build(map, &mut totals).is_ok(),
        |()| reference::area::build(LARGEST, map.tiles, &mut plain).is_ok(),
    );
    assert_eq!(totals, plain);
    totals
}

/// Squares of one size, at drawn places.
fn print_counts(kind: &str, map: &Map, totals: &[u32], areas: &[[i32; 4]]) {
    print_row(
        "area_count",
        kind,
        PASSES,
        areas,
        |[left, top, columns, rows]| {
            let area = Area {
                left,
                top,
                columns,
                rows,
            };
            area::count(map, totals, area).ok()
        },
        |[left, top, columns, rows]| {
            let area = Rectangle {
                left,
                top,
                columns,
                rows,
            };
            reference::area::count(LARGEST, map.tiles, totals, area).ok()
        },
    );
}

/// A tile becomes open and solid in turn.
fn print_changes(kind: &str, passes: usize, map: &Map, totals: &[u32], tile: (i32, i32)) {
    let mut ours = (map.tiles.to_vec(), totals.to_vec());
    let mut plain = ours.clone();
    print_row(
        "area_change",
        kind,
        passes,
        &[0, 1, 0, 1],
        |byte| area::change(LARGEST, &mut ours.0, &mut ours.1, tile, byte).is_ok(),
        |byte| reference::area::change(LARGEST, &mut plain.0, &mut plain.1, tile, byte).is_ok(),
    );
    assert!(ours == plain);
}

fn inputs<A>(random: impl FnMut() -> A) -> Vec<A> {
    std::iter::repeat_with(random).take(INPUTS).collect()
}

fn print_rows(kind: &str, floats: &[f32], roots: &[f32], integers: &[i32]) {
    row!(root, kind, roots);
    row!(round_to_i32, kind, floats);
    row!(trunc_to_i32, kind, floats);
    row!(i32_to_f32, kind, integers);
    row!(quantize_256ths, kind, floats);
}

fn print_angles(kind: &str, targets: &[(i32, i32)]) {
    let port = |(x, y)| parts::net_angle(x, y);
    let reference = |(x, y)| reference::net_angle(x, y);
    print_row("net_angle", kind, PASSES, targets, port, reference);
    let port = |(x, y)| parts::scan_angle(x, y);
    let reference = |(x, y)| {
        let (angle, read) = reference::quarter_scan(x, y);
        parts::Scan { angle, read }
    };
    print_row("scan_angle", kind, PASSES, targets, port, reference);
}

fn print_ramps(kind: &str, ramps: &[Ramp]) {
    let port = |(value, [start, range, curvature]): Ramp| {
        parts::velocity_ramp(value, start, range, curvature)
    };
    let reference = |(value, [start, range, curvature]): Ramp| {
        reference::velocity_ramp(value, start, range, curvature)
    };
    print_row("velocity_ramp", kind, PASSES, ramps, port, reference);
}

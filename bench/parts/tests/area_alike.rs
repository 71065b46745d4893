//! The solid tiles of rectangles against plain Rust.

use ponguriena::{Area, Map, Refusal, area};
use reference::Xorshift;
use reference::area::{Fault, Rectangle, build, change, count, read_all};

/// The largest map.
const SIDE: u32 = 1024;
const LARGEST: (u32, u32) = (SIDE, SIDE);

fn map((width, height): (u32, u32), tiles: &[u8]) -> Map<'_> {
    Map {
        width,
        height,
        tiles,
    }
}

fn told<A>(answer: Result<A, Fault>) -> Result<A, Refusal> {
    answer.map_err(|fault| match fault {
        Fault::Map => Refusal::BadMap,
        Fault::Area => Refusal::BadArea,
    })
}

fn below(random: &mut Xorshift, limit: u32) -> u32 {
    ((u64::from(random.pattern()) * u64::from(limit)) >> 32) as u32
}

fn drawn_byte(random: &mut Xorshift) -> u8 {
    [0, 1, 2, 3, 0, 1, 4, 255][below(random, 8) as usize]
}

fn drawn_tiles(random: &mut Xorshift, length: u32) -> Vec<u8> {
    (0..length).map(|_| drawn_byte(random)).collect()
}

/// Any totals, or some just below 2^32.
fn drawn_totals(random: &mut Xorshift, length: u32) -> Vec<u32> {
    let high = random.pattern().is_multiple_of(2);
    let mut total = || match high {
        true => u32::MAX - below(random, 4),
        false => random.pattern(),
    };
    (0..length).map(|_| total()).collect()
}

/// One or more tiles of a side.
fn drawn_span(random: &mut Xorshift, side: u32) -> (i32, i32) {
    let from = below(random, side);
    (from as i32, 1 + below(random, side - from) as i32)
}

/// As [left, top, columns, rows].
fn drawn_area(random: &mut Xorshift, (width, height): (u32, u32)) -> [i32; 4] {
    let (left, columns) = drawn_span(random, width);
    let (top, rows) = drawn_span(random, height);
    [left, top, columns, rows]
}

/// For both sides.
fn asked([left, top, columns, rows]: [i32; 4]) -> (Area, Rectangle) {
    let ours = Area {
        left,
        top,
        columns,
        rows,
    };
    let plain = Rectangle {
        left,
        top,
        columns,
        rows,
    };
    (ours, plain)
}

/// On any totals and on built ones, on which some are also counted by reading them all.
#[test]
fn the_largest_map_is_counted_alike() {
    let mut random = Xorshift::default();
    let tiles = drawn_tiles(&mut random, SIDE * SIDE);
    let map = map(LARGEST, &tiles);
    let mut totals = drawn_totals(&mut random, SIDE * SIDE);
    let mut plain = totals.clone();
    for is_built in [false, true] {
        for n in 0..200_000 {
            let (ours, theirs) = asked(drawn_area(&mut random, LARGEST));
            let solid = area::count(&map, &totals, ours);
            assert_eq!(solid, told(count(LARGEST, &tiles, &plain, theirs)));
            if is_built && n % 1000 == 0 {
                assert_eq!(solid, Ok(read_all(SIDE, &tiles, theirs)));
            }
        }
        assert_eq!(area::build(&map, &mut totals), Ok(()));
        assert_eq!(build(LARGEST, &tiles, &mut plain), Ok(()));
        assert_eq!(totals, plain);
    }
}

/// On built totals, which then are those built afresh, and on any.
#[test]
fn the_largest_map_is_changed_alike() {
    let mut random = Xorshift::seeded(1);
    let mut tiles = drawn_tiles(&mut random, SIDE * SIDE);
    let mut totals = vec![0; tiles.len()];
    assert_eq!(area::build(&map(LARGEST, &tiles), &mut totals), Ok(()));
    changed_alike(&mut random, &mut tiles, &mut totals);
    let mut afresh = vec![0; tiles.len()];
    assert_eq!(build(LARGEST, &tiles, &mut afresh), Ok(()));
    assert_eq!(totals, afresh);
    totals = drawn_totals(&mut random, SIDE * SIDE);
    changed_alike(&mut random, &mut tiles, &mut totals);
}

/// All bytes and totals are compared after each change.
fn changed_alike(random: &mut Xorshift, tiles: &mut [u8], totals: &mut [u32]) {
    let (mut plain_tiles, mut plain) = (tiles.to_vec(), totals.to_vec());
    for _ in 0..500 {
        let [column, row, ..] = drawn_area(random, LARGEST);
        let (tile, byte) = ((column, row), drawn_byte(random));
        assert_eq!(area::change(LARGEST, tiles, totals, tile, byte), Ok(()));
        let made = change(LARGEST, &mut plain_tiles, &mut plain, tile, byte);
        assert_eq!(made, Ok(()));
        assert!(tiles == plain_tiles && totals == plain, "{tile:?}");
    }
}

/// One of the wrong ones one time in eight.
fn or_wrong<A: Copy>(random: &mut Xorshift, right: A, wrong: &[A]) -> A {
    match below(random, 8) {
        0 => wrong[below(random, wrong.len() as u32) as usize],
        _ => right,
    }
}

/// Small maps and what is none, with arguments about every limit.
#[test]
fn any_call_is_answered_alike() {
    let mut random = Xorshift::seeded(2);
    for _ in 0..200_000 {
        let right = (1 + below(&mut random, 9), 1 + below(&mut random, 9));
        let length = right.0 * right.1;
        let wrong = [0, 1, length + 1, 1025, 1 << 16, u32::MAX];
        let width = or_wrong(&mut random, right.0, &wrong);
        let height = or_wrong(&mut random, right.1, &wrong);
        let bytes = or_wrong(&mut random, length, &[0, length - 1, length + 1]);
        let entries = or_wrong(&mut random, bytes, &[0, length - 1, length + 1]);
        let tiles = drawn_tiles(&mut random, bytes);
        let totals = drawn_totals(&mut random, entries);
        let (w, h) = (right.0 as i32, right.1 as i32);
        let wrong = [-1, 0, w, w + 1, h, h + 1, i32::MIN, i32::MAX];
        let area = drawn_area(&mut random, right).map(|n| or_wrong(&mut random, n, &wrong));
        answered_alike(
            (width, height),
            &tiles,
            &totals,
            area,
            drawn_byte(&mut random),
        );
    }
}

/// All three calls, and what they leave.
fn answered_alike(sides: (u32, u32), tiles: &[u8], totals: &[u32], area: [i32; 4], byte: u8) {
    let map = map(sides, tiles);
    let (ours, theirs) = asked(area);
    assert_eq!(
        area::count(&map, totals, ours),
        told(count(sides, tiles, totals, theirs))
    );
    let (mut ours, mut plain) = (totals.to_vec(), totals.to_vec());
    assert_eq!(
        area::build(&map, &mut ours),
        told(build(sides, tiles, &mut plain))
    );
    assert_eq!(ours, plain);
    let mut ours = (tiles.to_vec(), totals.to_vec());
    let mut plain = ours.clone();
    let tile = (area[0], area[1]);
    assert_eq!(
        area::change(sides, &mut ours.0, &mut ours.1, tile, byte),
        told(change(sides, &mut plain.0, &mut plain.1, tile, byte))
    );
    assert_eq!(ours, plain);
}

//! Prints test vectors for the program `test_area`: b, a or c for build, count and
//! change, then in 8 hex digits each the sides, how many bytes and totals there are, the
//! seeds that both are drawn from, whether the totals are built first, the call's four
//! values, the number, the count or the digest of the totals, and that of the bytes.

use reference::Xorshift;
use reference::area::{Fault, Rectangle, build, change, count, read_all};

const FACTOR: u64 = 16_777_619;

/// The largest prime below 2^32.
const MODULUS: u64 = 4_294_967_291;

/// From here on a seed says totals just below 2^32.
const HIGH: u32 = 0x8000_0000;

/// What stands where a count goes before it is written.
const NO_COUNT: u32 = 0x5555_5555;

const SIDES: [(u32, u32); 10] = [
    (1, 1),
    (1, 2),
    (2, 1),
    (2, 2),
    (3, 2),
    (7, 5),
    (32, 32),
    (64, 16),
    (1, 1024),
    (1024, 1),
];

/// Maps of one byte alone, and drawn ones.
const TILE_SEEDS: [u32; 7] = [0, 1, 2, 3, 255, 1000, 0xffff_0000];

const BYTES: [u8; 5] = [0, 1, 2, 3, 255];

/// Sides that are no map's, or not that of so many bytes.
const NO_MAPS: [(u32, u32, u32); 12] = [
    (0, 0, 0),
    (0, 1, 0),
    (1, 0, 0),
    (1, 1, 0),
    (1, 1, 2),
    (32, 32, 1023),
    (32, 32, 1025),
    (1025, 1, 1025),
    (1, 1025, 1025),
    (0x1_0000, 0x1_0000, 0),
    (u32::MAX, 1, 1),
    (0x8000_0001, 0x8000_0001, 1),
];

#[derive(Clone, Copy)]
enum Call {
    Build,
    Count(Rectangle),
    Change((i32, i32), u8),
}

/// What a call is made on.
#[derive(Clone, Copy)]
struct Lent {
    sides: (u32, u32),
    bytes: u32,
    entries: u32,
    tile_seed: u32,
    total_seed: u32,
    built: bool,
}

fn main() {
    let mut random = Xorshift::default();
    for sides in SIDES {
        for tile_seed in TILE_SEEDS {
            let lent = whole(sides, tile_seed, random.pattern() % HIGH);
            print(lent, Call::Build);
            for area in areas(sides, &mut random) {
                on_each(lent, Call::Count(area));
            }
            for (tile, byte) in changes(sides, &mut random) {
                on_each(lent, Call::Change(tile, byte));
            }
        }
        refused_areas(whole(sides, 1000, 1));
    }
    for (width, height, bytes) in NO_MAPS {
        no_map((width, height), bytes);
    }
}

/// A map and totals that fit it.
fn whole(sides: (u32, u32), tile_seed: u32, total_seed: u32) -> Lent {
    let tiles = sides.0 * sides.1;
    Lent {
        sides,
        bytes: tiles,
        entries: tiles,
        tile_seed,
        total_seed,
        built: false,
    }
}

/// On built totals, on others, and on such as are just below 2^32.
fn on_each(lent: Lent, call: Call) {
    print(
        Lent {
            built: true,
            ..lent
        },
        call,
    );
    print(lent, call);
    let total_seed = lent.total_seed + HIGH;
    print(Lent { total_seed, ..lent }, call);
}

fn rectangle(left: i32, top: i32, columns: i32, rows: i32) -> Rectangle {
    Rectangle {
        left,
        top,
        columns,
        rows,
    }
}

/// The whole map, its rims, its corners and two that are drawn.
fn areas((width, height): (u32, u32), random: &mut Xorshift) -> Vec<Rectangle> {
    let (w, h) = (width as i32, height as i32);
    let mut areas = vec![
        rectangle(0, 0, w, h),
        rectangle(0, 0, 1, h),
        rectangle(w - 1, 0, 1, h),
        rectangle(0, 0, w, 1),
        rectangle(0, h - 1, w, 1),
        rectangle(0, 0, 1, 1),
        rectangle(w - 1, h - 1, 1, 1),
    ];
    for _ in 0..2 {
        let (left, top) = drawn_tile((width, height), random);
        let columns = 1 + (random.pattern() % (width - left as u32)) as i32;
        let rows = 1 + (random.pattern() % (height - top as u32)) as i32;
        areas.push(rectangle(left, top, columns, rows));
    }
    areas
}

fn drawn_tile((width, height): (u32, u32), random: &mut Xorshift) -> (i32, i32) {
    let column = random.pattern() % width;
    let row = random.pattern() % height;
    (column as i32, row as i32)
}

/// Two corners to every byte, and a drawn tile.
fn changes(sides: (u32, u32), random: &mut Xorshift) -> Vec<((i32, i32), u8)> {
    let last = (sides.0 as i32 - 1, sides.1 as i32 - 1);
    let mut changes: Vec<_> = BYTES
        .into_iter()
        .flat_map(|byte| [((0, 0), byte), (last, byte)])
        .collect();
    changes.push((drawn_tile(sides, random), random.pattern() as u8));
    changes
}

/// 14: no tiles, tiles outside the map, sums that leave i32, totals too few and too many.
fn refused_areas(lent: Lent) {
    for from in ends(lent.sides.0) {
        for n in ends(lent.sides.0) {
            print(lent, Call::Count(rectangle(from, 0, n, 1)));
        }
        print(lent, Call::Change((from, 0), 1));
    }
    for from in ends(lent.sides.1) {
        for n in ends(lent.sides.1) {
            print(lent, Call::Count(rectangle(0, from, 1, n)));
        }
        print(lent, Call::Change((0, from), 1));
    }
    for entries in [0, lent.entries - 1, lent.entries + 1] {
        every_call(Lent { entries, ..lent });
    }
}

/// Places about the ends of a side and of i32; as many tiles from one of them on reach
/// outside the side in most cases.
fn ends(side: u32) -> [i32; 8] {
    let side = side as i32;
    [i32::MIN, -1, 0, 1, side - 1, side, side + 1, i32::MAX]
}

/// 1, also where 14 fits too.
fn no_map(sides: (u32, u32), bytes: u32) {
    for entries in [bytes, bytes + 1] {
        let lent = Lent {
            sides,
            bytes,
            entries,
            tile_seed: 1000,
            total_seed: 1,
            built: false,
        };
        every_call(lent);
        print(lent, Call::Count(rectangle(-1, 0, 0, 1)));
        print(lent, Call::Change((-1, 0), 1));
    }
}

fn every_call(lent: Lent) {
    print(lent, Call::Build);
    print(lent, Call::Count(rectangle(0, 0, 1, 1)));
    print(lent, Call::Change((0, 0), 1));
}

fn print(lent: Lent, call: Call) {
    let mut tiles = drawn_tiles(lent.tile_seed, lent.bytes);
    let mut totals = drawn_totals(lent.total_seed, lent.entries);
    if lent.built {
        build(lent.sides, &tiles, &mut totals).expect("totals are built where they fit");
    }
    let (letter, values, number, first) = match call {
        Call::Build => {
            let number = number_of(build(lent.sides, &tiles, &mut totals));
            ('b', [0; 4], number, digest(totals))
        }
        Call::Count(area) => {
            let values = [area.left, area.top, area.columns, area.rows];
            let counted = count(lent.sides, &tiles, &totals, area);
            if lent.built {
                assert_eq!(counted, Ok(read_all(lent.sides.0, &tiles, area)));
            }
            let left = counted.unwrap_or(NO_COUNT);
            ('a', values, number_of(counted.map(|_| ())), left)
        }
        Call::Change(tile, byte) => {
            let made = change(lent.sides, &mut tiles, &mut totals, tile, byte);
            if lent.built && made.is_ok() {
                let mut afresh = totals.clone();
                build(lent.sides, &tiles, &mut afresh).expect("the totals fit");
                assert_eq!(totals, afresh);
            }
            let values = [tile.0, tile.1, i32::from(byte), 0];
            ('c', values, number_of(made), digest(totals))
        }
    };
    let words: Vec<String> = [
        lent.sides.0,
        lent.sides.1,
        lent.bytes,
        lent.entries,
        lent.tile_seed,
        lent.total_seed,
        u32::from(lent.built),
    ]
    .into_iter()
    .chain(values.map(|value| value as u32))
    .chain([number, first, digest(tiles.into_iter().map(u32::from))])
    .map(|word| format!("{word:08x}"))
    .collect();
    println!("{letter} {}", words.join(" "));
}

fn number_of(answer: Result<(), Fault>) -> u32 {
    match answer {
        Ok(()) => 0,
        Err(Fault::Map) => 1,
        Err(Fault::Area) => 14,
    }
}

fn mix(digest: u32, word: u32) -> u32 {
    ((u64::from(digest) * FACTOR + u64::from(word)) % MODULUS) as u32
}

fn digest(words: impl IntoIterator<Item = u32>) -> u32 {
    words.into_iter().fold(0, mix)
}

/// Each is mixed from the one before, the first from the seed.
fn drawn(seed: u32, count: u32) -> impl Iterator<Item = u32> {
    std::iter::successors(Some(mix(seed, 1)), |&last| Some(mix(last, 1))).take(count as usize)
}

/// A seed below 256 says a map of that byte alone.
fn drawn_tiles(seed: u32, count: u32) -> Vec<u8> {
    let byte = |word: u32| match (u8::try_from(seed), word / 65_536 % 10) {
        (Ok(byte), _) => byte,
        (_, 4) => 255,
        (_, n) => (n % 4) as u8,
    };
    drawn(seed, count).map(byte).collect()
}

fn drawn_totals(seed: u32, count: u32) -> Vec<u32> {
    let total = |word: u32| {
        if seed < HIGH {
            word
        } else {
            u32::MAX - word / 65_536 % 4
        }
    };
    drawn(seed, count).map(total).collect()
}

//! The solid tiles of rectangles: rims, changes, refusals and their order.

use ponguriena::{Area, Map, Refusal, Totals, area};

/// Two of nine are solid; the deadly one is not.
const TILES: [u8; 9] = [0, 0, 1, 2, 255, 0, 3, 0, 0];
const MAP: Map = Map {
    width: 3,
    height: 3,
    tiles: &TILES,
};
const TOTALS: [u32; 9] = [0, 0, 1, 0, 0, 1, 1, 1, 2];

fn at(left: i32, top: i32, columns: i32, rows: i32) -> Area {
    Area {
        left,
        top,
        columns,
        rows,
    }
}

#[test]
fn totals_and_rims() {
    let mut totals = [77; 9];
    assert_eq!(area::build(&MAP, &mut totals), Ok(()));
    assert_eq!(totals, TOTALS);
    let counts = [
        (at(0, 0, 3, 3), 2),
        (at(0, 0, 1, 3), 1),
        (at(2, 0, 1, 3), 1),
        (at(0, 0, 3, 1), 1),
        (at(0, 2, 3, 1), 1),
        (at(0, 1, 3, 1), 0),
        (at(0, 0, 2, 2), 0),
        (at(1, 1, 2, 2), 0),
        (at(2, 0, 1, 1), 1),
        (at(0, 2, 1, 1), 1),
        (at(2, 2, 1, 1), 0),
    ];
    for (asked, solid) in counts {
        assert_eq!(area::count(&MAP, &totals, asked), Ok(solid), "{asked:?}");
    }
}

/// The four entries are added and taken away whatever they are.
#[test]
fn other_totals() {
    let totals = [5, 0, 9, 0, 0, 0, u32::MAX, 0, 1];
    for (asked, number) in [
        (at(0, 0, 3, 3), 1),
        (at(1, 0, 2, 3), 2),
        (at(0, 1, 3, 2), u32::MAX - 7),
        (at(1, 1, 2, 2), u32::MAX - 1),
    ] {
        assert_eq!(area::count(&MAP, &totals, asked), Ok(number), "{asked:?}");
    }
}

/// From 1 to 3 the byte alone is written; what becomes solid or open counts from its tile on.
#[test]
fn changed_tiles() {
    let (mut tiles, mut totals) = (TILES, TOTALS);
    let mut change = |tile, byte| area::change((3, 3), &mut tiles, &mut totals, tile, byte);
    assert_eq!(change((2, 0), 3), Ok(()));
    assert_eq!(change((1, 1), 1), Ok(()));
    assert_eq!(change((0, 2), 2), Ok(()));
    assert_eq!(tiles, [0, 0, 3, 2, 1, 0, 2, 0, 0]);
    assert_eq!(totals, [0, 0, 1, 0, 1, 2, 0, 1, 2]);
}

/// What was right stays right, and in the end the tiles are the caller's again.
#[test]
fn totals_with_their_map() -> Result<(), Refusal> {
    let mut tiles = TILES;
    let mut totals = Totals::build(3, 3, &mut tiles)?;
    assert_eq!(totals.map().tiles, TILES);
    for (column, row, solid) in [(0, 0, 3), (2, 0, 3), (2, 2, 4)] {
        totals.change(column, row, 1)?;
        assert_eq!(totals.count(at(0, 0, 3, 3)), Ok(solid));
    }
    assert_eq!(totals.change(3, 0, 0), Err(Refusal::BadArea));
    assert_eq!(totals.count(at(0, 0, 3, 0)), Err(Refusal::BadArea));
    assert_eq!(tiles, [1, 0, 1, 2, 255, 0, 3, 0, 1]);
    let narrow = Totals::build(2, 3, &mut tiles);
    assert_eq!(narrow, Err(Refusal::BadMap));
    Ok(())
}

/// Build, count and change of the area's first tile, on so many totals; what is refused writes
/// nothing.
fn answers((width, height): (u32, u32), entries: usize, asked: Area) -> [Result<(), Refusal>; 3] {
    let map = Map {
        width,
        height,
        ..MAP
    };
    let lent = (TILES, vec![77; entries]);
    let mut built = lent.1.clone();
    let (mut tiles, mut totals) = lent.clone();
    let tile = (asked.left, asked.top);
    let answers = [
        area::build(&map, &mut built),
        area::count(&map, &totals, asked).map(drop),
        area::change((width, height), &mut tiles, &mut totals, tile, 1),
    ];
    assert_eq!(answers[0].is_err(), built == lent.1);
    assert_eq!(answers[2].is_err(), (tiles, totals) == lent);
    answers
}

#[test]
fn no_map_comes_first() {
    for sides in [(0, 9), (9, 0), (2, 3), (3, 4), (u32::MAX, 3)] {
        for entries in [0, 8, 9, 10] {
            let told = answers(sides, entries, at(-1, 0, 0, 1));
            assert_eq!(told, [Err(Refusal::BadMap); 3]);
        }
    }
}

#[test]
fn totals_of_another_length() {
    for entries in [0, 8, 10, 18] {
        let told = answers((3, 3), entries, at(0, 0, 1, 1));
        assert_eq!(told, [Err(Refusal::BadArea); 3]);
    }
}

/// In each direction: no tiles, and tiles outside the map, also where a sum leaves i32. A change
/// asks for one tile, so it minds the place alone.
#[test]
fn outside_the_map() {
    let bad = Err(Refusal::BadArea);
    for n in [0, -1, 4, i32::MIN, i32::MAX] {
        for asked in [at(0, 0, n, 1), at(0, 0, 1, n)] {
            let told = answers((3, 3), 9, asked);
            assert_eq!(told, [Ok(()), bad, Ok(())], "{asked:?}");
        }
    }
    for from in [-1, 3, i32::MIN, i32::MAX] {
        for n in [1, 2, i32::MIN, i32::MAX] {
            for asked in [at(from, 0, n, 1), at(0, from, 1, n)] {
                let told = answers((3, 3), 9, asked);
                assert_eq!(told, [Ok(()), bad, bad], "{asked:?}");
            }
        }
    }
}

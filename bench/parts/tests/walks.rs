//! That each value of a point or a walk gets through the C interface to its place.

use parts::{Tile, check_line, check_point, move_box};
use ponguriena::{Map, Refusal};

/// Open above, solid below.
const TILES: [u8; 6] = [0, 0, 0, 3, 3, 1];
const MAP: Map = Map {
    width: 3,
    height: 2,
    tiles: &TILES,
};
/// The same with deadly tiles in place of the open ones but one.
const SPIKED: Map = Map {
    tiles: &[2, 4, 2, 3, 3, 1],
    ..MAP
};
const CHARACTER: [f32; 2] = [28.0, 28.0];

#[test]
fn points() {
    let tiles = [
        ([70.0, 20.0], Tile::Deadly),
        ([40.0, 20.0], Tile::Open),
        ([70.0, 40.0], Tile::Normal),
        ([40.0, 40.0], Tile::Unhookable),
        ([63.4, 20.0], Tile::Open),
        ([63.5, 20.0], Tile::Deadly),
        ([-5000.0, -5000.0], Tile::Deadly),
        ([5000.0, 5000.0], Tile::Normal),
        ([f32::NAN, f32::NEG_INFINITY], Tile::Deadly),
    ];
    for (pos, tile) in tiles {
        assert_eq!(check_point(SPIKED, pos), Ok(tile), "{pos:?}");
    }
}

/// The same on both maps.
#[test]
fn spikes_stop_nothing() {
    for (from, to) in [([5.0, 6.0], [90.0, 6.0]), ([16.0, 16.0], [16.0, 48.0])] {
        assert_eq!(check_line(SPIKED, from, to), check_line(MAP, from, to));
        let [vel_x, vel_y] = [to[0] - from[0], to[1] - from[1]];
        let moved = |map| move_box(map, from, [vel_x, vel_y], CHARACTER);
        assert_eq!(moved(SPIKED), moved(MAP));
    }
}

#[test]
fn lines() {
    assert_eq!(check_line(MAP, [5.0, 6.0], [90.0, 6.0]), Ok(None));
    let down = check_line(MAP, [16.0, 16.0], [16.0, 48.0]);
    assert_eq!(down, Ok(Some(([16.0, 32.0], 3))));
    let inside = check_line(MAP, [70.0, 40.0], [70.0, 50.0]);
    assert_eq!(inside, Ok(Some(([70.0, 40.0], 1))));
}

#[test]
fn boxes() {
    let free = move_box(MAP, [40.0, 10.0], [1.5, -2.5], CHARACTER);
    assert_eq!(free, Ok(([41.5, 7.5], [1.5, -2.5])));
    let landed = move_box(MAP, [40.0, 17.0], [2.0, 7.0], CHARACTER);
    assert_eq!(landed, Ok(([42.0, 17.0], [2.0, 0.0])));
}

#[test]
fn refusals() {
    let narrow = Map { width: 2, ..MAP };
    assert_eq!(check_point(narrow, [0.0; 2]), Err(Refusal::BadMap));
    assert_eq!(check_line(narrow, [0.0; 2], [9.0; 2]), Err(Refusal::BadMap));
    assert_eq!(
        move_box(narrow, [0.0; 2], [9.0; 2], CHARACTER),
        Err(Refusal::BadMap)
    );
    assert_eq!(
        check_line(MAP, [0.0; 2], [70000.0; 2]),
        Err(Refusal::TooFar)
    );
    assert_eq!(
        move_box(MAP, [0.0; 2], [70000.0; 2], CHARACTER),
        Err(Refusal::TooFar)
    );
}

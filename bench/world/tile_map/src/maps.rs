//! The maps on which characters tick and move.

use crate::Map;

/// The tiles at the edge go on without end.
pub fn open() -> Map {
    Map::from_rows(&["0"])
}

/// The ground begins at y = 96; its right half is unhookable.
pub fn floor() -> Map {
    let air = "0000000000000000";
    Map::from_rows(&[air, air, air, "1111111133333333"])
}

/// Walls all around, those at the right and below unhookable, and some tiles inside,
/// one of them deadly.
pub fn room() -> Map {
    Map::from_rows(&[
        "11111111", "10000003", "10000003", "10030003", "10020043", "11000003", "11000003",
        "13333333",
    ])
}

/// A wall with a hole.
pub fn pillars() -> Map {
    Map::from_rows(&["00001000", "00000000", "00003000", "11000011"])
}

pub fn all() -> [Map; 4] {
    [open(), floor(), room(), pillars()]
}

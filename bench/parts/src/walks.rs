//! The tile of a point on a map, and the walks of a line and of a box over it. `world` of
//! libtw2 says in Rust what each walk means, document 01 when it is refused.

use crate::ffi;
use ponguriena::{Map, Refusal};

const NOTHING: u32 = 0;

/// What a point of a map is.
#[derive(Clone, Copy, Debug, Eq, Hash, PartialEq)]
pub enum Tile {
    /// Stops nothing.
    Open,
    /// Solid, and hooks hold there.
    Normal,
    /// Open but for who ends a step there.
    Deadly,
    /// Solid, and no hook holds there.
    Unhookable,
}

/// The tile of a point; one outside the map is that at its rim. Refused: a map at fault.
///
/// ```
/// use parts::{Tile, check_point};
/// use ponguriena::Map;
///
/// let map = Map { width: 3, height: 1, tiles: &[1, 2, 0] };
/// assert_eq!(check_point(map, [40.0, 16.0]), Ok(Tile::Deadly));
/// assert_eq!(check_point(map, [-5000.0, 16.0]), Ok(Tile::Normal));
/// ```
#[inline]
pub fn check_point(map: Map, pos: [f32; 2]) -> Result<Tile, Refusal> {
    let mut tile = NOTHING;
    // SAFETY: the pointer and the length are those of one slice.
    let answer = unsafe {
        ffi::ponguriena_check_point(
            map.width,
            map.height,
            map.tiles.as_ptr(),
            map.tiles.len(),
            pos[0],
            pos[1],
            &mut tile,
        )
    };
    Refusal::of_answer(answer)?;
    Ok(match tile {
        1 => Tile::Normal,
        2 => Tile::Deadly,
        3 => Tile::Unhookable,
        _ => Tile::Open,
    })
}

/// The first point of the line that is solid, with its tile: 1 Normal, 3 Unhookable.
/// Refused: a map at fault, too many turns.
#[inline]
pub fn check_line(
    map: Map,
    from: [f32; 2],
    to: [f32; 2],
) -> Result<Option<([f32; 2], u32)>, Refusal> {
    let [mut point_x, mut point_y] = [0.0; 2];
    let mut tile = NOTHING;
    // SAFETY: the pointer and the length are those of one slice.
    let answer = unsafe {
        ffi::ponguriena_check_line(
            map.width,
            map.height,
            map.tiles.as_ptr(),
            map.tiles.len(),
            from[0],
            from[1],
            to[0],
            to[1],
            &mut point_x,
            &mut point_y,
            &mut tile,
        )
    };
    Refusal::of_answer(answer)?;
    Ok((tile != NOTHING).then_some(([point_x, point_y], tile)))
}

/// The position and the velocity after the move of a box of the size `box_`.
/// Refused: a map at fault, too many turns.
#[inline]
pub fn move_box(
    map: Map,
    pos: [f32; 2],
    vel: [f32; 2],
    box_: [f32; 2],
) -> Result<([f32; 2], [f32; 2]), Refusal> {
    let [mut pos_x, mut pos_y] = pos;
    let [mut vel_x, mut vel_y] = vel;
    // SAFETY: the pointer and the length are those of one slice.
    let answer = unsafe {
        ffi::ponguriena_move_box(
            map.width,
            map.height,
            map.tiles.as_ptr(),
            map.tiles.len(),
            &mut pos_x,
            &mut pos_y,
            &mut vel_x,
            &mut vel_y,
            box_[0],
            box_[1],
        )
    };
    Refusal::of_answer(answer)?;
    Ok(([pos_x, pos_y], [vel_x, vel_y]))
}

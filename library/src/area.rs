//! Is this area clear? How many tiles of a rectangle are solid, from running totals.
//!
//! A total stands for each tile, row by row as the map is: how many tiles are solid from the
//! map's corner to there, in both directions. They are built once for a map; then four of
//! them answer for any rectangle, however large. [`Totals`] keeps them beside its map. The
//! functions here are lent both: any numbers are taken for totals, and a sum or a difference
//! that leaves u32 goes on modulo 2^32. A refused call writes nothing.

use crate::ffi;
use crate::map::Map;
use crate::refusal::Refusal;
use alloc::vec;
use alloc::vec::Vec;

/// A rectangle of tiles.
#[derive(Clone, Copy, Debug, Eq, Hash, PartialEq)]
pub struct Area {
    /// Its first column.
    pub left: i32,
    /// Its first row.
    pub top: i32,
    /// Its width; there must be one or more.
    pub columns: i32,
    /// Its height; there must be one or more.
    pub rows: i32,
}

/// Builds the totals of a map.
///
/// # Errors
///
/// [`Refusal::BadMap`], then [`Refusal::BadArea`] where there is not one total for each tile.
#[inline]
pub fn build(map: &Map, totals: &mut [u32]) -> Result<(), Refusal> {
    // SAFETY: each pointer and length are those of one slice, and what is written is borrowed
    // for writing.
    let number = unsafe {
        ffi::ponguriena_area_build(
            map.width,
            map.height,
            map.tiles.as_ptr(),
            map.tiles.len(),
            totals.as_mut_ptr(),
            totals.len(),
        )
    };
    Refusal::of_answer(number)
}

/// How many tiles of an area are solid; on other totals than the map's own the sum and
/// difference of the four, modulo 2^32. A deadly tile is not solid.
///
/// # Errors
///
/// [`Refusal::BadMap`], then [`Refusal::BadArea`] where there is not one total for each tile,
/// the area has no tiles or it reaches outside the map.
#[inline]
pub fn count(map: &Map, totals: &[u32], area: Area) -> Result<u32, Refusal> {
    let mut count = 0;
    // SAFETY: as in `build`.
    let number = unsafe {
        ffi::ponguriena_area_count(
            map.width,
            map.height,
            map.tiles.as_ptr(),
            map.tiles.len(),
            totals.as_ptr(),
            totals.len(),
            area.left,
            area.top,
            area.columns,
            area.rows,
            &mut count,
        )
    };
    Refusal::of_answer(number)?;
    Ok(count)
}

/// Writes a tile's byte into a map of this width and height, and adds the change in its count,
/// modulo 2^32, to each total whose column and row are both the tile's or greater. Totals that
/// were right for the map before are right for it afterwards.
///
/// # Errors
///
/// [`Refusal::BadMap`], then [`Refusal::BadArea`] where there is not one total for each tile,
/// or the tile is outside the map.
#[inline]
pub fn change(
    (width, height): (u32, u32),
    tiles: &mut [u8],
    totals: &mut [u32],
    (column, row): (i32, i32),
    byte: u8,
) -> Result<(), Refusal> {
    // SAFETY: as in `build`.
    let number = unsafe {
        ffi::ponguriena_area_change(
            width,
            height,
            tiles.as_mut_ptr(),
            tiles.len(),
            totals.as_mut_ptr(),
            totals.len(),
            column,
            row,
            byte,
        )
    };
    Refusal::of_answer(number)
}

/// A map with its totals. The map's tiles are borrowed, so that they change through
/// [`Totals::change`] alone and the totals stay right.
///
/// ```
/// use ponguriena::{Area, Refusal, Totals};
///
/// let mut tiles = [0, 2, 0, 1, 3, 0];
/// let mut totals = Totals::build(3, 2, &mut tiles)?;
/// let above = Area { left: 0, top: 0, columns: 3, rows: 1 };
/// let all = Area { rows: 2, ..above };
/// assert_eq!(totals.count(above), Ok(0));
/// assert_eq!(totals.count(all), Ok(2));
/// totals.change(2, 0, 1)?;
/// assert_eq!(totals.count(above), Ok(1));
/// assert_eq!(totals.count(Area { columns: 4, ..above }), Err(Refusal::BadArea));
/// # Ok::<(), Refusal>(())
/// ```
#[derive(Debug, Eq, PartialEq)]
pub struct Totals<'a> {
    width: u32,
    height: u32,
    tiles: &'a mut [u8],
    totals: Vec<u32>,
}

impl<'a> Totals<'a> {
    /// Of a map, row by row. Refused: a map at fault, before anything is allocated.
    pub fn build(width: u32, height: u32, tiles: &'a mut [u8]) -> Result<Totals<'a>, Refusal> {
        let map = Map {
            width,
            height,
            tiles,
        };
        // A valid map has 1 to 1,048,576 tiles; lent no totals, the call writes nothing.
        if build(&map, &mut []) == Err(Refusal::BadMap) {
            return Err(Refusal::BadMap);
        }
        let mut totals = vec![0; tiles.len()];
        build(&map, &mut totals)?;
        Ok(Totals {
            width,
            height,
            tiles,
            totals,
        })
    }

    /// The map as it now is, for calls on a world.
    #[inline]
    pub fn map(&self) -> Map<'_> {
        Map {
            width: self.width,
            height: self.height,
            tiles: self.tiles,
        }
    }

    /// How many tiles of an area are solid: 0 where it is clear. Refused with
    /// [`Refusal::BadArea`]: an area that has no tiles or reaches outside the map.
    #[inline]
    pub fn count(&self, area: Area) -> Result<u32, Refusal> {
        count(&self.map(), &self.totals, area)
    }

    /// Writes a tile's byte. Refused with [`Refusal::BadArea`]: a tile outside the map.
    #[inline]
    pub fn change(&mut self, column: i32, row: i32, byte: u8) -> Result<(), Refusal> {
        let sides = (self.width, self.height);
        change(sides, self.tiles, &mut self.totals, (column, row), byte)
    }
}

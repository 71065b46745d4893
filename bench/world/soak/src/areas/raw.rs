//! The functions of the C interface on a map's totals, with what they are lent.

use crate::fence::{Access, Loan};
use crate::ffi;
use crate::server::Server;
use reference::area::Rectangle;
use tile_map::Map;

/// As a call takes them.
pub struct Loans {
    pub sides: (u32, u32),
    tiles: Loan<u8>,
    totals: Loan<u32>,
}

/// With so many totals, and what may be done with the tiles and with these.
pub fn lend(server: &mut Server, map: &Map, totals: usize, access: [Access; 2]) -> Loans {
    Loans {
        sides: (map.width as u32, map.height as u32),
        tiles: server.tiles.lend(map.tiles.len(), access[0]),
        totals: server.totals.lend(totals, access[1]),
    }
}

/// # Safety
///
/// What is lent is there, and nothing overlaps.
pub unsafe fn build(loans: &Loans) -> u32 {
    let ((width, height), tiles, totals) = (loans.sides, loans.tiles, loans.totals);
    // SAFETY: as the caller says.
    unsafe {
        ffi::ponguriena_area_build(
            width,
            height,
            tiles.pointer,
            tiles.length,
            totals.pointer,
            totals.length,
        )
    }
}

/// # Safety
///
/// As for `build`, and one number is lent for the count.
pub unsafe fn count(loans: &Loans, rectangle: Rectangle, to: Loan<u32>) -> u32 {
    let ((width, height), tiles, totals) = (loans.sides, loans.tiles, loans.totals);
    // SAFETY: as the caller says.
    unsafe {
        ffi::ponguriena_area_count(
            width,
            height,
            tiles.pointer,
            tiles.length,
            totals.pointer,
            totals.length,
            rectangle.left,
            rectangle.top,
            rectangle.columns,
            rectangle.rows,
            &mut *to.pointer,
        )
    }
}

/// # Safety
///
/// As for `build`.
pub unsafe fn change(loans: &Loans, (column, row): (i32, i32), byte: u8) -> u32 {
    let ((width, height), tiles, totals) = (loans.sides, loans.tiles, loans.totals);
    // SAFETY: as the caller says.
    unsafe {
        ffi::ponguriena_area_change(
            width,
            height,
            tiles.pointer,
            tiles.length,
            totals.pointer,
            totals.length,
            column,
            row,
            byte,
        )
    }
}

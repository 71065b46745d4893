//! The solid tiles of rectangles, by the customer's words alone.

/// Why a call is refused.
#[derive(Clone, Copy, Debug, Eq, PartialEq)]
pub enum Fault {
    /// 1: there is no map.
    Map,
    /// 14: a rectangle has no tiles, it or a tile reaches outside the map, or there is
    /// not one total for each tile.
    Area,
}

/// Left column, top row, width and height.
#[derive(Clone, Copy, Debug)]
pub struct Rectangle {
    pub left: i32,
    pub top: i32,
    pub columns: i32,
    pub rows: i32,
}

/// Bytes 1 and 3 are solid.
#[inline]
pub fn is_solid(byte: u8) -> bool {
    matches!(byte, 1 | 3)
}

/// 1, then 14 for a rectangle.
#[inline]
pub fn judge(
    (width, height): (u32, u32),
    tiles: &[u8],
    totals: &[u32],
    area: Option<Rectangle>,
) -> Result<(), Fault> {
    let side = 1..=1024;
    let whole = u64::from(width) * u64::from(height);
    if !side.contains(&width) || !side.contains(&height) || tiles.len() as u64 != whole {
        return Err(Fault::Map);
    }
    let within = |from: i32, n: i32, side: u32| {
        from >= 0 && n >= 1 && i64::from(from) + i64::from(n) <= i64::from(side)
    };
    let fits =
        area.is_none_or(|a| within(a.left, a.columns, width) && within(a.top, a.rows, height));
    if totals.len() != tiles.len() || !fits {
        return Err(Fault::Area);
    }
    Ok(())
}

/// The solid tiles of a rectangle of the map, each of them read.
pub fn read_all(width: u32, tiles: &[u8], area: Rectangle) -> u32 {
    let columns = area.left..area.left + area.columns;
    let rows = area.top..area.top + area.rows;
    rows.flat_map(|row| columns.clone().map(move |column| (column, row)))
        .filter(|&(column, row)| is_solid(tiles[row as usize * width as usize + column as usize]))
        .count() as u32
}

/// Sums along each row, then down each column.
#[inline]
pub fn build(sides: (u32, u32), tiles: &[u8], totals: &mut [u32]) -> Result<(), Fault> {
    judge(sides, tiles, totals, None)?;
    let width = sides.0 as usize;
    for (row, bytes) in totals
        .chunks_exact_mut(width)
        .zip(tiles.chunks_exact(width))
    {
        let mut sum = 0;
        for (total, &byte) in row.iter_mut().zip(bytes) {
            sum += u32::from(is_solid(byte));
            *total = sum;
        }
    }
    for at in width..totals.len() {
        totals[at] += totals[at - width];
    }
    Ok(())
}

/// Four entries, an entry left of or above the map counting as 0.
#[inline]
pub fn count(
    sides: (u32, u32),
    tiles: &[u8],
    totals: &[u32],
    area: Rectangle,
) -> Result<u32, Fault> {
    judge(sides, tiles, totals, Some(area))?;
    let entry = |column: i32, row: i32| match (usize::try_from(column), usize::try_from(row)) {
        (Ok(column), Ok(row)) => totals[row * sides.0 as usize + column],
        _ => 0,
    };
    let (left, top) = (area.left - 1, area.top - 1);
    let (right, bottom) = (left + area.columns, top + area.rows);
    Ok(entry(right, bottom)
        .wrapping_sub(entry(left, bottom))
        .wrapping_sub(entry(right, top))
        .wrapping_add(entry(left, top)))
}

/// Writes a tile's byte, and adds the change in its count to each total whose column
/// and row are both the tile's or greater.
#[inline]
pub fn change(
    sides: (u32, u32),
    tiles: &mut [u8],
    totals: &mut [u32],
    (column, row): (i32, i32),
    byte: u8,
) -> Result<(), Fault> {
    let tile = Rectangle {
        left: column,
        top: row,
        columns: 1,
        rows: 1,
    };
    judge(sides, tiles, totals, Some(tile))?;
    let (width, column, row) = (sides.0 as usize, column as usize, row as usize);
    let place = &mut tiles[row * width + column];
    let more = u32::from(is_solid(byte)).wrapping_sub(u32::from(is_solid(*place)));
    *place = byte;
    for entries in totals.chunks_exact_mut(width).skip(row) {
        for entry in &mut entries[column..] {
            *entry = entry.wrapping_add(more);
        }
    }
    Ok(())
}

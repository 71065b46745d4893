//! Maps as a few numbers, so that they can be changed a little.

use ponguriena::Map;

/// The longest side of a map.
pub const LONGEST: u32 = 1024;

/// A tile of every `columns`-th column and `rows`-th row is solid, but for those that are less than
/// `clear` rows away from a line from the first tile; the line goes down by `rise` rows in 256
/// columns.
#[derive(Clone, Debug, PartialEq)]
pub struct Ground {
    pub width: u32,
    pub height: u32,
    /// 0 for a map without a solid tile.
    pub columns: u32,
    pub rows: u32,
    pub rise: i32,
    pub clear: i32,
    /// Whether the outermost tiles, which count beyond the map too, are open.
    pub open_rim: bool,
}

impl Ground {
    pub fn open(width: u32, height: u32) -> Ground {
        Ground {
            width,
            height,
            columns: 0,
            rows: 1,
            rise: 0,
            clear: 0,
            open_rim: false,
        }
    }

    pub fn solid(width: u32, height: u32) -> Ground {
        Ground {
            columns: 1,
            ..Ground::open(width, height)
        }
    }

    pub fn tiles(&self) -> Vec<u8> {
        let places =
            (0..self.height).flat_map(|row| (0..self.width).map(move |column| (column, row)));
        places
            .map(|(column, row)| u8::from(self.is_solid(column, row)))
            .collect()
    }

    pub fn map<'a>(&self, tiles: &'a [u8]) -> Map<'a> {
        Map {
            width: self.width,
            height: self.height,
            tiles,
        }
    }

    /// A map of one tile does the same as one whose tiles are all alike.
    pub fn smallest(&self) -> Ground {
        let alike = self.columns == 0 || (*self == Ground::solid(self.width, self.height));
        let side = |side| if alike { 1 } else { side };
        Ground {
            width: side(self.width),
            height: side(self.height),
            ..self.clone()
        }
    }

    fn is_solid(&self, column: u32, row: u32) -> bool {
        let on_rim = column == 0 || row == 0 || column + 1 == self.width || row + 1 == self.height;
        if self.columns == 0 || (self.open_rim && on_rim) {
            return false;
        }
        let line = column as i32 * self.rise / 256;
        column.is_multiple_of(self.columns)
            && row.is_multiple_of(self.rows.max(1))
            && (row as i32 - line).abs() >= self.clear
    }
}

//! What a session reads. Every `None` is text at fault.

use harness::{CALL_NUMBERS, Call, LONGEST_SIDE};
use tile_map::Map;

pub const MOST_BYTES: usize = 65_536;

pub const MAP_NAMES: &str = "width height";
pub const TILE_NAMES: &str = "tiles";
pub const CALL_NAMES: &str = "call a b c d e f";

/// What is not read yet.
pub struct Text<'a>(&'a [u8]);

/// The map, and the text from the first call on.
pub fn begin(text: &[u8]) -> Option<(Text<'_>, Map)> {
    if text.len() > MOST_BYTES {
        return None;
    }
    let mut text = Text(text);
    let map = text.map()?;
    text.names(CALL_NAMES)?;
    Some((text, map))
}

impl<'a> Text<'a> {
    pub fn is_at_end(&self) -> bool {
        self.0.is_empty()
    }

    pub fn call(&mut self) -> Option<Call> {
        let numbers: Vec<i32> = self.values(CALL_NUMBERS)?;
        Call::from_numbers(numbers.try_into().ok()?).ok()
    }

    fn map(&mut self) -> Option<Map> {
        self.names(MAP_NAMES)?;
        let sides = self.values(2)?;
        let (width, height) = (side(sides[0])?, side(sides[1])?);
        self.names(TILE_NAMES)?;
        let mut tiles = Vec::new();
        for _ in 0..height {
            for tile in self.values(width)? {
                tiles.push(u8::try_from(tile).ok()?);
            }
        }
        Some(Map::new(width, height, tiles))
    }

    fn names(&mut self, names: &str) -> Option<()> {
        (self.line()? == names.as_bytes()).then_some(())
    }

    /// The values of a line, which are so many.
    fn values(&mut self, count: usize) -> Option<Vec<i32>> {
        let words = self.line()?.split(|&byte| byte == b' ');
        let values = words.map(value).collect::<Option<Vec<i32>>>()?;
        (values.len() == count).then_some(values)
    }

    /// Up to byte 10, which ends it.
    fn line(&mut self) -> Option<&'a [u8]> {
        let end = self.0.iter().position(|&byte| byte == b'\n')?;
        let line = &self.0[..end];
        self.0 = &self.0[end + 1..];
        Some(line)
    }
}

fn side(value: i32) -> Option<usize> {
    let value = usize::try_from(value).ok()?;
    (1..=LONGEST_SIDE).contains(&value).then_some(value)
}

/// Decimal, with no sign but a minus below zero and no leading zeros.
fn value(word: &[u8]) -> Option<i32> {
    let digits = word.strip_prefix(b"-").unwrap_or(word);
    let is_written_so = match digits {
        [b'0'] => digits.len() == word.len(),
        [b'1'..=b'9', rest @ ..] => rest.iter().all(u8::is_ascii_digit),
        _ => false,
    };
    if !is_written_so {
        return None;
    }
    str::from_utf8(word).ok()?.parse().ok()
}

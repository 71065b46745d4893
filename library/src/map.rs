//! The map that calls are lent.

/// Row by row; a map whose sides do not fit its tiles is refused.
#[derive(Clone, Copy, Debug, Eq, PartialEq)]
pub struct Map<'a> {
    /// 1 to 1,024.
    pub width: u32,
    /// 1 to 1,024.
    pub height: u32,
    /// 1 is solid, 3 is solid and holds no hook, 2 is deadly, every other is open. A
    /// deadly one is no floor and stops nobody and no hook, but a step removes whoever
    /// ends it with a corner there.
    pub tiles: &'a [u8],
}

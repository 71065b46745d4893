//! A tile map by the point rule of document 01.

pub mod draw;
pub mod maps;
pub mod turns;
pub mod walled;

use original::{Collision, CollisionType, vec2};
use reference::round_to_i32;

const TILE: i32 = 32;

/// A line of vectors has room for this many tiles.
const MOST_TILES: usize = 64;

const NORMAL: u8 = 1;
const UNHOOKABLE: u8 = 3;

/// Stops nobody and nothing, but kills.
pub const DEADLY: u8 = 2;

#[derive(Clone)]
pub struct Map {
    pub width: usize,
    pub height: usize,
    pub tiles: Vec<u8>,
}

impl Map {
    pub fn new(width: usize, height: usize, tiles: Vec<u8>) -> Map {
        assert!(tiles.len() == width * height);
        Map {
            width,
            height,
            tiles,
        }
    }

    /// One text for each row, one hex digit for each tile.
    pub fn from_rows(rows: &[&str]) -> Map {
        let digits = rows.iter().flat_map(|row| row.chars());
        let tiles = digits.map(|digit| digit.to_digit(16).expect("a hex digit") as u8);
        Map::new(rows[0].len(), rows.len(), tiles.collect())
    }

    /// The middles of the solid tiles.
    pub fn solid_middles(&self) -> Vec<vec2> {
        let solid = |index: &usize| collision_type(self.tiles[*index]).is_some();
        (0..self.tiles.len())
            .filter(solid)
            .map(|index| self.middle(index))
            .collect()
    }

    /// Whether the tile of a point is deadly.
    #[inline]
    pub fn is_deadly(&self, pos: vec2) -> bool {
        self.tile(pos) == DEADLY
    }

    /// The same map with byte 0 in place of every deadly tile.
    pub fn without_spikes(mut self) -> Map {
        let deadly = self.tiles.iter_mut().filter(|tile| **tile == DEADLY);
        deadly.for_each(|tile| *tile = 0);
        self
    }

    fn middle(&self, index: usize) -> vec2 {
        let along = |number: usize| number as f32 * TILE as f32 + TILE as f32 / 2.0;
        vec2::new(along(index % self.width), along(index / self.width))
    }

    /// The column and the row of a point, clamped to the map.
    #[inline]
    pub fn tile_of(&self, pos: vec2) -> (usize, usize) {
        let column = tile_number(pos.x, self.width);
        (column, tile_number(pos.y, self.height))
    }

    #[inline]
    fn tile(&self, pos: vec2) -> u8 {
        let (column, row) = self.tile_of(pos);
        self.tiles[row * self.width + column]
    }

    /// Width, height and tiles in the digits of a line of vectors.
    pub fn text(&self) -> String {
        assert!(self.tiles.len() <= MOST_TILES);
        let digits: String = self.tiles.iter().map(|t| format!("{t:x}")).collect();
        let (width, height) = (self.width, self.height);
        format!("{width:02x} {height:02x} {digits:0<MOST_TILES$}")
    }

    /// Width and height as the points count them.
    pub fn extent(&self) -> vec2 {
        vec2::new(self.width as f32, self.height as f32) * TILE as f32
    }
}

impl Collision for &Map {
    #[inline]
    fn check_point(&mut self, pos: vec2) -> Option<CollisionType> {
        collision_type(self.tile(pos))
    }
}

#[inline]
fn tile_number(coordinate: f32, side: usize) -> usize {
    let number = round_to_i32(coordinate).div_euclid(TILE);
    number.clamp(0, side as i32 - 1) as usize
}

#[inline]
fn collision_type(tile: u8) -> Option<CollisionType> {
    match tile {
        NORMAL => Some(CollisionType::Normal),
        UNHOOKABLE => Some(CollisionType::Unhookable),
        _ => None,
    }
}

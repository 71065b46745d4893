//! The map and the moving boxes that are timed.

use original::{Collision, vec2};
use reference::Xorshift;
use std::f32::consts::PI;
use tile_map::Map;

pub const CHARACTER: vec2 = vec2 { x: 28.0, y: 28.0 };

const WIDTH: usize = 64;
const HEIGHT: usize = 32;
const BODIES: usize = 1024;

/// One tile in so many is solid, and the whole edge of the map.
const SOLID_EVERY: u32 = 12;

/// A box starts at most so far from the middle of a solid tile, in each coordinate.
const NEAR: f32 = 40.0;

/// Speeds lie at most so far from the one asked for.
const SPEED_MARGIN: f32 = 0.4;

#[derive(Clone, Copy)]
pub struct Body {
    pub pos: vec2,
    pub vel: vec2,
}

pub fn walled_map(random: &mut Xorshift) -> Map {
    let mut tiles = Vec::new();
    for row in 0..HEIGHT {
        for column in 0..WIDTH {
            let edge = [0, HEIGHT - 1].contains(&row) || [0, WIDTH - 1].contains(&column);
            let solid = edge || random.pattern().is_multiple_of(SOLID_EVERY);
            tiles.push(u8::from(solid));
        }
    }
    Map::new(WIDTH, HEIGHT, tiles)
}

/// Clear at first, near a wall, and on their way in any direction.
pub fn bodies(mut map: &Map, speed: f32, random: &mut Xorshift) -> Vec<Body> {
    let walls = map.solid_middles();
    let mut bodies = Vec::new();
    while bodies.len() < BODIES {
        let wall = walls[random.pattern() as usize % walls.len()];
        let pos = wall + vec2::new(random.within(NEAR), random.within(NEAR));
        if !map.check_box(pos, CHARACTER) {
            let (sine, cosine) = random.within(PI).sin_cos();
            let vel = vec2::new(cosine, sine) * (speed + random.within(SPEED_MARGIN));
            bodies.push(Body { pos, vel });
        }
    }
    bodies
}

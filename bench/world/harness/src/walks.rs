//! A map on which each walk is measured by document 01's formulas before it is
//! taken. One with too many turns is not taken; what follows then is void.

use crate::refusal::Refusal;
use original::{Collision, CollisionType, vec2};
use tile_map::Map;
use tile_map::turns::{MOST_TURNS, box_turns, line_turns, player_turns};

pub struct Walks<'a> {
    map: &'a Map,
    player_collision: bool,
    refused: bool,
}

impl<'a> Walks<'a> {
    pub fn new(map: &'a Map, player_collision: bool) -> Walks<'a> {
        Walks {
            map,
            player_collision,
            refused: false,
        }
    }

    /// Whether all walks were taken.
    pub fn answer(&self) -> Result<(), Refusal> {
        Refusal::TooFar.when(self.refused)
    }

    fn allows(&mut self, turns: i64) -> bool {
        self.refused |= turns > MOST_TURNS;
        !self.refused
    }
}

impl Collision for Walks<'_> {
    fn check_point(&mut self, pos: vec2) -> Option<CollisionType> {
        self.map.check_point(pos)
    }

    fn check_line(&mut self, from: vec2, to: vec2) -> Option<(vec2, CollisionType)> {
        if self.allows(line_turns(from, to)) {
            self.map.check_line(from, to)
        } else {
            None
        }
    }

    /// `move_` takes its player walk along the way that this gives.
    fn move_box(&mut self, pos: vec2, vel: vec2, box_: vec2) -> (vec2, vec2) {
        if !self.allows(box_turns(vel)) {
            return (pos, vel);
        }
        let (new_pos, new_vel) = self.map.move_box(pos, vel, box_);
        if self.player_collision && !self.allows(player_turns(pos, new_pos)) {
            return (pos, vel);
        }
        (new_pos, new_vel)
    }
}

//! Searches in the midst of play.

use crate::sequence::SearchSequence;
use harness::SEATS;
use harness::World;
use harness::draw::{FIRST_SEATS, any_call, any_join, present_id};
use harness::search::{Buttons, lists};
use record_calls::Sequence;
use record_calls::maps::all;
use reference::Xorshift;
use tile_map::Map;
use tile_map::draw::{below, pick};

const JOINS: usize = 5;
const CALLS: usize = 12;
const SEARCHES: usize = 9;

pub fn play_sequences(random: &mut Xorshift) -> Vec<SearchSequence> {
    let maps = all(random);
    maps.iter()
        .step_by(2)
        .map(|map| mixed(map, random))
        .collect()
}

fn mixed(map: &Map, random: &mut Xorshift) -> SearchSequence {
    let seats = pick(random, &[FIRST_SEATS, SEATS]);
    let mut start = Sequence::on(map);
    for _ in 0..JOINS {
        start.call(any_join(seats, map, random));
    }
    for _ in 0..CALLS {
        let call = any_call(seats, &start.world, map, random);
        start.call(call);
    }
    let mut sequence = SearchSequence::after(start);
    for _ in 0..SEARCHES {
        let goal = Goal::drawn(&sequence.world, random);
        let place = goal.place(&sequence.world, map);
        sequence = sequence.search(goal.id, place);
    }
    sequence
}

/// Where somebody is to get.
pub struct Goal {
    /// Of somebody present, where somebody is.
    pub id: i32,
    /// It is the end of this one, or so far beside it.
    list: Vec<Buttons>,
    beside: i32,
    /// Where the list has no end.
    otherwise: (i32, i32),
}

impl Goal {
    pub fn drawn(world: &World, random: &mut Xorshift) -> Goal {
        let id = present_id(world, random);
        let list = any_list(random);
        let beside = match below(random, 4) {
            0 => below(random, 5) as i32 - 2,
            _ => 0,
        };
        let otherwise = (below(random, 200) as i32, below(random, 200) as i32);
        Goal {
            id,
            list,
            beside,
            otherwise,
        }
    }

    pub fn place(&self, world: &World, map: &Map) -> (i32, i32) {
        let end = world.place_after(map, self.id, &self.list);
        let (x, y) = end.unwrap_or(self.otherwise);
        (x.saturating_add(self.beside), y)
    }
}

/// Three steps more often than not.
fn any_list(random: &mut Xorshift) -> Vec<Buttons> {
    let steps = pick(random, &[1, 2, 3, 3]);
    let of_length: Vec<_> = lists()
        .into_iter()
        .filter(|list| list.len() == steps)
        .collect();
    of_length[below(random, of_length.len())].clone()
}

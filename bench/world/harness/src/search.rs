//! Change request 12, 'how could she get there?': the first list of inputs that leads somebody to
//! a place.

use crate::encoding::{WORLD_NUMBERS, decoded};
use crate::refusal::Refusal;
use crate::roles::Role;
use crate::world::{World, check_map};
use libtw2_gamenet::snap_obj::PlayerInput;
use tile_map::Map;

pub const MOST_STEPS: usize = 3;

/// How many steps, then direction and jump of each.
pub const WAY_NUMBERS: usize = 1 + 2 * MOST_STEPS;

/// What is tried in a step.
#[derive(Clone, Copy, Debug, Eq, Ord, PartialEq, PartialOrd)]
pub struct Buttons {
    pub direction: i32,
    pub jump: i32,
}

impl Buttons {
    /// The hook is let go, and the aim stays.
    pub fn input(self, stored: PlayerInput) -> PlayerInput {
        PlayerInput {
            direction: self.direction,
            jump: self.jump,
            hook: 0,
            ..stored
        }
    }
}

/// All that are tried, direction before jump and rising.
const ALL_BUTTONS: [Buttons; 6] = [
    pressed(-1, 0),
    pressed(-1, 1),
    pressed(0, 0),
    pressed(0, 1),
    pressed(1, 0),
    pressed(1, 1),
];

const fn pressed(direction: i32, jump: i32) -> Buttons {
    Buttons { direction, jump }
}

/// What a list of inputs has led to.
#[derive(Clone)]
struct Tried {
    list: Vec<Buttons>,
    world: World,
    /// Of the last record.
    place: Option<(i32, i32)>,
}

impl World {
    /// None where no list leads there.
    pub fn search(
        &self,
        map: &Map,
        id: i32,
        place: (i32, i32),
    ) -> Result<Option<Vec<Buttons>>, Refusal> {
        check_map(map)?;
        self.clone().stored_input(id)?;
        let mut tried = vec![Tried::nothing(self)];
        for _ in 0..MOST_STEPS {
            // Those with the same beginning stay together, so the order is that of the request.
            let longer = tried.iter().flat_map(|tried| {
                let next = |&buttons: &Buttons| tried.longer(map, id, buttons);
                ALL_BUTTONS.iter().filter_map(next)
            });
            tried = longer.collect();
            if let Some(found) = tried.iter().find(|tried| tried.place == Some(place)) {
                return Ok(Some(found.list.clone()));
            }
        }
        Ok(None)
    }

    /// Where the last record of a list is; none where the list does not count.
    pub fn place_after(&self, map: &Map, id: i32, list: &[Buttons]) -> Option<(i32, i32)> {
        let mut tried = Tried::nothing(self);
        for &buttons in list {
            tried = tried.longer(map, id, buttons)?;
        }
        tried.place
    }
}

impl Tried {
    fn nothing(world: &World) -> Tried {
        Tried {
            list: Vec::new(),
            world: world.clone(),
            place: None,
        }
    }

    /// None where the step is refused, or the id was lost to spikes.
    fn longer(&self, map: &Map, id: i32, buttons: Buttons) -> Option<Tried> {
        let mut world = self.world.clone();
        let stored = world.stored_input(id).ok()?;
        world.input(id, buttons.input(stored)).ok()?;
        let core = world.step(map).ok()?.records[id as usize]?;
        Some(Tried {
            list: [&self.list[..], &[buttons]].concat(),
            world,
            place: Some((core.x, core.y)),
        })
    }
}

/// All of them: shorter ones first, then by direction, then jump, of the earliest step in which
/// they differ.
pub fn lists() -> Vec<Vec<Buttons>> {
    let mut lists = Vec::new();
    let mut longest = vec![Vec::new()];
    for _ in 0..MOST_STEPS {
        let longer = |list: &Vec<Buttons>| ALL_BUTTONS.map(|last| [&list[..], &[last]].concat());
        longest = longest.iter().flat_map(longer).collect();
        lists.extend(longest.iter().cloned());
    }
    lists
}

/// As a call of the port's C interface: who asks, a world and so many numbers for the way.
pub fn lent_search(
    role: i32,
    world: &[i32],
    map: &Map,
    id: i32,
    place: (i32, i32),
    room: usize,
) -> Result<[i32; WAY_NUMBERS], Refusal> {
    Refusal::NotAllowed.when(Role::of(role) != Some(Role::Referee))?;
    Refusal::Length.when(room != WAY_NUMBERS)?;
    let numbers: &[i32; WORLD_NUMBERS] = world.try_into().map_err(|_| Refusal::Length)?;
    let list = decoded(numbers).search(map, id, place)?.unwrap_or_default();
    let mut way = [0; WAY_NUMBERS];
    way[0] = list.len() as i32;
    let steps = way[1..].chunks_mut(2).zip(&list);
    steps.for_each(|(step, buttons)| step.copy_from_slice(&[buttons.direction, buttons.jump]));
    Ok(way)
}

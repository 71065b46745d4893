//! A list through the safe `World`, and two beside each other.

use crate::pairs::Pair;
use compare_world::differs::{Differs, same};
use harness::Call;
use ponguriena::{CharacterCore, CharacterId, PlayerInput, Records, Refusal, Role, World};
use port_calls::{call, id_of, lent};
use tile_map::Map;

/// What a step tells of an id: the record that it took, and what can be read after it.
#[derive(Clone, Debug, PartialEq)]
pub struct Seen {
    pub taken: Option<CharacterCore>,
    pub record: Result<CharacterCore, Refusal>,
    pub mark: Result<bool, Refusal>,
    pub input: Result<PlayerInput, Refusal>,
}

/// What was compared.
#[derive(Default)]
pub struct Tally {
    pub steps: usize,
    /// Of these, with a record of the id.
    pub present: usize,
    /// With other records of others.
    pub beside_others: usize,
}

/// One step: what is seen of the id, and all records.
struct Shown {
    seen: Seen,
    all: Records,
}

/// Up to the first step that is refused in either.
pub fn compare(pair: &Pair, tally: &mut Tally) -> Result<(), Differs> {
    let [first, second] = &pair.lists;
    let first = played(&pair.map, id_of(pair.id), first);
    let second = played(&pair.map, id_of(pair.id), second);
    for (turn, (a, b)) in first.iter().zip(&second).enumerate() {
        tally.steps += 1;
        tally.present += usize::from(a.seen.taken.is_some());
        tally.beside_others += usize::from(a.all != b.all);
        let told = |what: Differs| what.at(format!("step {}", turn + 1));
        same("seen", a.seen.clone(), b.seen.clone()).map_err(told)?;
    }
    Ok(())
}

/// The steps of a list, up to the first that is refused.
fn played(map: &Map, id: CharacterId, calls: &[Call]) -> Vec<Shown> {
    let mut world = World::fresh();
    let mut steps = Vec::new();
    for &made in calls {
        match (made, call(&mut world, &lent(map), made)) {
            (_, Ok(Some(all))) => steps.push(Shown {
                seen: seen(&world, &all, id),
                all,
            }),
            (Call::Step, _) => break,
            // Other calls may be refused.
            _ => {}
        }
    }
    steps
}

fn seen(world: &World, records: &Records, id: CharacterId) -> Seen {
    Seen {
        taken: records.get(id),
        record: world.record(Role::Board, id),
        mark: world.floor_mark(Role::Board, id),
        input: world.player_input(Role::Referee, id),
    }
}

//! A sequence whose answers are known, through the safe `World`.

use crate::differs::{Differs, same, same_numbers};
use harness::encoding::encoded;
use harness::{Published, SEATS};
use original::{CORE_NUMBERS, core_numbers, input_numbers};
use ponguriena::Role::Referee;
use ponguriena::{CharacterId, Map, Records, World};
use port_calls::{call, id_of, number};
use record_calls::{Line, Sequence};

/// Beside those of seats and of tunings.
pub const STRANGE: [i32; 4] = [-1, SEATS as i32, i32::MIN, i32::MAX];

/// How many calls were compared.
pub fn replay(sequence: &Sequence) -> Result<usize, Differs> {
    let mut world = World::fresh();
    for (turn, line) in sequence.lines.iter().enumerate() {
        compare_line(&mut world, line).map_err(|what| what.at(format!("call {}", turn + 1)))?;
    }
    compare_readers(&world, &sequence.world)?;
    Ok(sequence.lines.len())
}

fn compare_line(world: &mut World, line: &Line) -> Result<(), Differs> {
    let answer = call(world, &lent_map(line), line.call);
    same("answer", number(&answer), line.number())?;
    if let (Ok(Some(records)), Ok(published)) = (answer, &line.answer) {
        same("records", listed(&records), expected(published))?;
        let removed: Vec<CharacterId> = published.removed_ids().map(id_of).collect();
        same("removed", records.removed(), &removed)?;
    }
    same_numbers("world", world.numbers(), &encoded(&line.after))
}

/// With the sides that the call is told.
pub fn lent_map(line: &Line) -> Map<'_> {
    Map {
        width: line.sides.0,
        height: line.sides.1,
        tiles: &line.map.tiles,
    }
}

pub fn listed(records: &Records) -> Vec<(CharacterId, [i32; CORE_NUMBERS])> {
    let records = records.iter();
    records.map(|(id, core)| (id, core.numbers())).collect()
}

pub fn expected(published: &Published) -> Vec<(CharacterId, [i32; CORE_NUMBERS])> {
    let records = (0..).map(CharacterId).zip(published.records);
    let numbers = |(id, core): (_, Option<_>)| Some((id, core_numbers(core?)));
    records.filter_map(numbers).collect()
}

/// What is read of each seat and of each tuning.
fn compare_readers(world: &World, expected: &harness::World) -> Result<(), Differs> {
    for id in (0..SEATS as i32).chain(STRANGE) {
        let seat = usize::try_from(id).ok();
        let slot = seat.and_then(|seat| expected.slots.get(seat));
        let refusal = slot.map_or(2, |slot| if slot.present { 0 } else { 8 });
        let record = world.record(Referee, id_of(id));
        let input = world.player_input(Referee, id_of(id));
        let mark = world.floor_mark(Referee, id_of(id));
        same("answer of record", number(&record), refusal)?;
        same("answer of player_input", number(&input), refusal)?;
        same("answer of floor_mark", number(&mark), refusal)?;
        if let (Ok(record), Ok(input), Ok(mark), Some(slot)) = (record, input, mark, slot) {
            let net = core_numbers(slot.character.to_net());
            same("record", record.numbers(), net)?;
            same("input", input.numbers(), input_numbers(slot.input))?;
            same("floor mark", mark, slot.grounded)?;
        }
    }
    compare_tunings(world, &expected.tunings)
}

fn compare_tunings(world: &World, expected: &[i32]) -> Result<(), Differs> {
    for index in (0..=expected.len() as i32).chain(STRANGE) {
        let hundredths = usize::try_from(index).ok().and_then(|n| expected.get(n));
        let tuning = world.tuning(Referee, index);
        same("tuning", tuning.ok(), hundredths.copied())?;
        let refusal = if hundredths.is_some() { 0 } else { 3 };
        same("answer of tuning", number(&tuning), refusal)?;
    }
    Ok(())
}

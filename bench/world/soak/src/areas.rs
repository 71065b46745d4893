//! The totals of the map: built, asked and changed with it.

mod raw;

use crate::fence::{Access, take_back};
use crate::function::Function;
use crate::maps::other_length;
use crate::played::{Compared, Played};
use crate::server::Server;
use compare_world::any_numbers::any;
use compare_world::differs::{Differs, same};
use reference::Xorshift;
use reference::area::{self, Fault, Rectangle};
use tile_map::draw::{below, pick};

/// One in so many may be at fault.
const FAULTY_EVERY: usize = 5;

/// One in so many builds writes other totals than the map's own at some place afterwards.
const DAMAGED_EVERY: usize = 8;

pub fn any_call(server: &mut Server, random: &mut Xorshift) -> Result<Played, Differs> {
    let faulty = below(random, FAULTY_EVERY) == 0;
    match below(random, 8) {
        0 => build(server, faulty, random),
        1 | 2 => change(server, faulty, random),
        _ => count(server, faulty, random),
    }
}

pub fn build(server: &mut Server, faulty: bool, random: &mut Xorshift) -> Result<Played, Differs> {
    let map = server.told_map(faulty, random);
    let length = totals_length(server, faulty, random);
    let loans = raw::lend(server, &map, length, [Access::Read, Access::Write]);
    let sides = loans.sides;
    // SAFETY: each loan is of as many elements as it says, and none overlaps another.
    let answer = unsafe { raw::build(&loans) };
    let told = |what: Differs| what.at(format!("build {sides:?}, {length} totals"));
    take_back(answer, &mut [&mut server.tiles, &mut server.totals]).map_err(told)?;
    let mut expected = server.totals.kept().to_vec();
    let built = area::build(sides, &map.tiles, &mut expected);
    same("answer", answer, number(built)).map_err(told)?;
    server.totals.expect(&expected).map_err(told)?;
    if below(random, DAMAGED_EVERY) == 0 {
        let at = below(random, server.tiles_count());
        server.totals.first_mut(at + 1)[at] = any(random).cast_unsigned();
    }
    Ok(Played::of(Function::AreaBuild, answer, Compared::Whole))
}

fn count(server: &mut Server, faulty: bool, random: &mut Xorshift) -> Result<Played, Differs> {
    let map = server.told_map(faulty, random);
    let length = totals_length(server, faulty, random);
    let rectangle = drawn_rectangle(server.sides, faulty, random);
    let loans = raw::lend(server, &map, length, [Access::Read; 2]);
    let (sides, to) = (loans.sides, server.area.lend_one());
    // SAFETY: as above.
    let answer = unsafe { raw::count(&loans, rectangle, to) };
    let told = |what: Differs| what.at(format!("{rectangle:?} of {sides:?}, {length} totals"));
    take_back(
        answer,
        &mut [&mut server.tiles, &mut server.totals, &mut server.area],
    )
    .map_err(told)?;
    let expected = area::count(sides, &map.tiles, server.totals.lent(), rectangle);
    same("answer", answer, number(expected)).map_err(told)?;
    if let Ok(expected) = expected {
        server.area.expect(&[expected]).map_err(told)?;
    }
    Ok(Played::of(Function::AreaCount, answer, Compared::Whole))
}

/// The server plays on upon what it leaves.
fn change(server: &mut Server, faulty: bool, random: &mut Xorshift) -> Result<Played, Differs> {
    let mut map = server.told_map(faulty, random);
    let length = totals_length(server, faulty, random);
    let Rectangle { left, top, .. } = drawn_rectangle(server.sides, faulty, random);
    let any = random.pattern() as u8;
    let byte = pick(random, &[0, 0, 0, 1, 2, 3, any]);
    let loans = raw::lend(server, &map, length, [Access::Change; 2]);
    let sides = loans.sides;
    // SAFETY: as above.
    let answer = unsafe { raw::change(&loans, (left, top), byte) };
    let told = |what: Differs| what.at(format!("{byte} to {left}, {top} of {sides:?}"));
    take_back(answer, &mut [&mut server.tiles, &mut server.totals]).map_err(told)?;
    let mut expected = server.totals.kept().to_vec();
    let changed = area::change(sides, &mut map.tiles, &mut expected, (left, top), byte);
    same("answer", answer, number(changed)).map_err(told)?;
    server.totals.expect(&expected).map_err(told)?;
    server.tiles.expect(&map.tiles).map_err(told)?;
    Ok(Played::of(Function::AreaChange, answer, Compared::Whole))
}

fn number<T>(answer: Result<T, Fault>) -> u32 {
    match answer {
        Ok(_) => 0,
        Err(Fault::Map) => 1,
        Err(Fault::Area) => 14,
    }
}

fn totals_length(server: &Server, faulty: bool, random: &mut Xorshift) -> usize {
    let right = server.tiles_count();
    match below(random, 4) {
        0 if faulty => other_length(right, random),
        _ => right,
    }
}

/// Within the map; or where it is at fault about its sides, and anywhere.
fn drawn_rectangle((width, height): (u32, u32), faulty: bool, random: &mut Xorshift) -> Rectangle {
    let mut along = |side: u32| {
        let from = below(random, side as usize) as i32;
        let count = 1 + below(random, side as usize - from as usize) as i32;
        match below(random, 4) {
            0 if faulty => (
                pick(random, &[-1, side as i32, from]),
                pick(random, &[0, -1, count]),
            ),
            1 if faulty => (any(random), any(random)),
            2 if faulty => (from, side as i32 - from + 1),
            _ => (from, count),
        }
    };
    let ((left, columns), (top, rows)) = (along(width), along(height));
    Rectangle {
        left,
        top,
        columns,
        rows,
    }
}

//! What arrives at the screen, and what it shows.

use crate::fence::{Access, take_back};
use crate::ffi;
use crate::function::Function;
use crate::maps::other_length;
use crate::played::{Compared, Played, same_answer};
use crate::server::Server;
use crate::stops::unless_it_stops;
use compare_world::differs::{Differs, same};
use compare_world::receives::{any_thing, received};
use harness::draw::any_id;
use harness::sending::{SCREEN_NUMBERS, decoded_screen};
use harness::{Refusal, SEATS};
use original::{CORE_NUMBERS, core_numbers};
use reference::Xorshift;
use tile_map::Map;
use tile_map::draw::{below, pick};

/// One in so many is at fault.
const FAULT_EVERY: usize = 20;

/// The next thing that was passed along, or one that nobody has sent.
pub fn receive(
    server: &mut Server,
    invented: bool,
    random: &mut Xorshift,
) -> Result<Played, Differs> {
    let faulty = below(random, FAULT_EVERY) == 0;
    let mut numbers = match invented {
        true => any_thing(random),
        false => server.pending.clone(),
    };
    if faulty {
        numbers.truncate(below(random, numbers.len() + 1));
    }
    let map = server.told_map(faulty, random);
    let length = drawn_length(SCREEN_NUMBERS, faulty, random);
    let played = made(server, &map, &numbers, length).map_err(|what| {
        let sides = (map.width, map.height, map.tiles.len());
        what.at(format!(
            "{numbers:?} to a screen of {length}, map {sides:?}"
        ))
    })?;
    if !invented {
        take_pending(server, played.answer, faulty);
    }
    Ok(played)
}

/// What is refused though nothing was wrong with the call never arrives.
fn take_pending(server: &mut Server, answer: u32, faulty: bool) {
    match answer {
        0 => drop(server.pending.drain(..server.count.lent()[0])),
        _ if faulty => {}
        _ => server.pending.clear(),
    }
}

fn drawn_length(right: usize, faulty: bool, random: &mut Xorshift) -> usize {
    match below(random, 3) {
        0 if faulty => other_length(right, random),
        _ => right,
    }
}

fn made(server: &mut Server, map: &Map, numbers: &[i32], length: usize) -> Result<Played, Differs> {
    server.passed.put(numbers);
    let before = *server.screen.array();
    let answer = arrived(server, map, numbers.len(), length)?;
    if length != SCREEN_NUMBERS {
        same("answer", answer, Refusal::Length.number())?;
        return Ok(Played::of(Function::Receive, answer, Compared::Whole));
    }
    let Some(expected) = unless_it_stops(|| received(before, map, numbers)) else {
        return Ok(Played::of(Function::Receive, answer, Compared::Stopped));
    };
    let (number, used, screen) = expected;
    same("answer", answer, number)?;
    if answer == 0 {
        server.count.expect(&[used])?;
        server.screen.expect(&screen)?;
    }
    Ok(Played::of(Function::Receive, answer, Compared::Whole))
}

/// The answer to so many numbers, with a screen of that length.
fn arrived(server: &mut Server, map: &Map, count: usize, length: usize) -> Result<u32, Differs> {
    let screen = server.screen.lend(length, Access::Change);
    let tiles = server.tiles.lend(map.tiles.len(), Access::Read);
    let passed = server.passed.lend(count, Access::Read);
    let used = server.count.lend_one();
    // SAFETY: each loan is of as many elements as it says, and none overlaps another.
    let answer = unsafe {
        ffi::ponguriena_receive(
            screen.pointer,
            screen.length,
            map.width as u32,
            map.height as u32,
            tiles.pointer,
            tiles.length,
            passed.pointer,
            passed.length,
            &mut *used.pointer,
        )
    };
    take_back(
        answer,
        &mut [
            &mut server.screen,
            &mut server.tiles,
            &mut server.passed,
            &mut server.count,
        ],
    )?;
    Ok(answer)
}

pub fn shown(server: &mut Server, random: &mut Xorshift) -> Result<Played, Differs> {
    let faulty = below(random, FAULT_EVERY) == 0;
    let id = match faulty {
        true => pick(random, &[-1, SEATS as i32, i32::MIN, i32::MAX]),
        false => any_id(server.life.seats, random),
    };
    let lengths = [SCREEN_NUMBERS, CORE_NUMBERS].map(|right| drawn_length(right, faulty, random));
    let screen = server.screen.lend(lengths[0], Access::Read);
    let record = server.record.lend(lengths[1], Access::Write);
    let (to, room) = (record.pointer, record.length);
    // SAFETY: as above.
    let answer = unsafe { ffi::ponguriena_shown(screen.pointer, screen.length, id, to, room) };
    take_back(answer, &mut [&mut server.screen, &mut server.record])?;
    let expected = match lengths {
        [SCREEN_NUMBERS, CORE_NUMBERS] => decoded_screen(server.screen.array()).shown(id),
        _ => Err(Refusal::Length),
    };
    let told = |what: Differs| what.at(format!("shown {id}, lengths {lengths:?}"));
    if let Some(core) = same_answer(answer, expected).map_err(told)? {
        server.record.expect(&core_numbers(core)).map_err(told)?;
    }
    Ok(Played::of(Function::Shown, answer, Compared::Whole))
}

//! What a screen of any numbers makes of any numbers that arrive.

use crate::any_numbers::any;
use crate::differs::{Differs, same, same_numbers};
use harness::sending::{MESSAGE_NUMBERS, Passed, SCREEN_NUMBERS, decoded_screen, encoded_screen};
use harness::tunings::TUNINGS;
use harness::{Refusal, SEATS};
use original::{CORE_NUMBERS, core_numbers};
use ponguriena::send_buffers;
use port_calls::{lent, number};
use reference::Xorshift;
use std::fmt::{Display, Formatter, Result as Written};
use std::panic::catch_unwind;
use tile_map::Map;
use tile_map::draw::{below, pick};

type Numbers = [i32; SCREEN_NUMBERS];

/// So many things arrive beside those that a call has passed along.
const THINGS: usize = 4;

/// What a record holds before it is written.
const UNWRITTEN: i32 = 77;

#[derive(Default)]
pub struct Tally {
    taken: usize,
    refused: usize,
    stopped: usize,
}

/// What the port left of the screen.
pub fn compare(
    mut screen: Numbers,
    map: &Map,
    passed: &[i32],
    random: &mut Xorshift,
    tally: &mut Tally,
) -> Result<Numbers, Differs> {
    let mut things = vec![passed.to_vec()];
    things.extend((0..THINGS).map(|_| any_thing(random)));
    let no_map = Map {
        width: map.width + 1,
        ..map.clone()
    };
    for numbers in things {
        let map = if below(random, 8) == 0 { &no_map } else { map };
        let told = |what: Differs| what.at(format!("{numbers:?} arrives"));
        screen = compare_all(screen, map, &numbers, tally).map_err(told)?;
    }
    for id in [-1, SEATS as i32].into_iter().chain(0..SEATS as i32) {
        compare_shown(&screen, id)?;
    }
    Ok(screen)
}

/// Whole or cut off, of a seat or a tuning that there is or of none.
pub fn any_thing(random: &mut Xorshift) -> Vec<i32> {
    let mut numbers: Vec<i32> = (0..MESSAGE_NUMBERS).map(|_| any(random)).collect();
    numbers[0] = pick(random, &[0, 0, 0, 1, 1, 1, 2, 3, 4, 4, 5, -1]);
    if below(random, 4) > 0 {
        let limit = if numbers[0] == 4 { TUNINGS } else { SEATS };
        numbers[1] = below(random, limit) as i32;
    }
    if below(random, 4) == 0 {
        numbers.truncate(below(random, MESSAGE_NUMBERS));
    }
    numbers
}

/// One thing after another, up to the first that is refused or goes on without end.
fn compare_all(
    mut screen: Numbers,
    map: &Map,
    numbers: &[i32],
    tally: &mut Tally,
) -> Result<Numbers, Differs> {
    let mut rest = numbers;
    while !rest.is_empty() {
        let (next, used) = compare_first(screen, map, rest, tally)?;
        screen = next;
        rest = if used == 0 { &[] } else { &rest[used..] };
    }
    Ok(screen)
}

/// The screen that the port left, and how many numbers it took.
fn compare_first(
    before: Numbers,
    map: &Map,
    numbers: &[i32],
    tally: &mut Tally,
) -> Result<(Numbers, usize), Differs> {
    let mut port = before;
    let answer = send_buffers::receive(&mut port, &lent(map), numbers);
    let used = answer.unwrap_or(0);
    let Ok(expected) = catch_unwind(|| received(before, map, numbers)) else {
        tally.stopped += 1;
        return Ok((port, used));
    };
    same("answer", number(&answer), expected.0)?;
    same("used", used, expected.1)?;
    same_numbers("screen", &port, &expected.2)?;
    match expected.0 {
        0 => tally.taken += 1,
        _ => tally.refused += 1,
    }
    Ok((port, used))
}

/// The answer, how many numbers the first thing has, and the screen.
pub fn received(before: Numbers, map: &Map, numbers: &[i32]) -> (u32, usize, Numbers) {
    let Some(passed) = Passed::first_of(numbers) else {
        return (Refusal::Length.number(), 0, before);
    };
    let mut screen = decoded_screen(&before);
    match screen.receive(map, passed) {
        Ok(()) => (0, passed.numbers().len(), encoded_screen(&screen)),
        Err(refusal) => (refusal.number(), 0, before),
    }
}

fn compare_shown(screen: &Numbers, id: i32) -> Result<(), Differs> {
    let mut record = [UNWRITTEN; CORE_NUMBERS];
    let answer = send_buffers::shown(screen, id, &mut record);
    let (refusal, shown) = match decoded_screen(screen).shown(id) {
        Ok(core) => (0, core_numbers(core)),
        Err(refusal) => (refusal.number(), [UNWRITTEN; CORE_NUMBERS]),
    };
    same("answer of shown", number(&answer), refusal)?;
    same_numbers("shown", &record, &shown)
}

impl Display for Tally {
    fn fmt(&self, formatter: &mut Formatter<'_>) -> Written {
        let (taken, refused, stopped) = (self.taken, self.refused, self.stopped);
        write!(
            formatter,
            "{taken} things taken by a screen, {refused} refused, {stopped} on which libtw2 stops"
        )
    }
}

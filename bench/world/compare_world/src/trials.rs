//! Trials through the buffers, some of them refused, and what each leaves in its result.

use crate::differs::{Differs, same, same_numbers};
use crate::sequences;
use harness::SEATS;
use harness::draw::{any_hold, any_id, place};
use harness::trial::{MOST_STEPS, MOST_TUNINGS, ROW_NUMBERS};
use harness::tunings::{HOOK_HOLD, ORDINARY};
use ponguriena::trial;
use port_calls::{lent, number};
use record_trial::playing::{self, target};
use record_trial::{Case, Lengths, UNWRITTEN};
use reference::Xorshift;
use std::fmt::{Display, Formatter, Result as Written};
use std::panic::catch_unwind;
use tile_map::draw::{below, pick, random_map};
use tile_map::walled::walled;

/// One in so many has all the steps that there may be, a player on nearly every seat, a fault.
const LONG_EVERY: u64 = 50;
const FULL_EVERY: u64 = 20;
const FAULT_EVERY: u64 = 4;

const STEPS: usize = 200;
const PLAYERS: usize = 9;

/// As many as to leave few seats empty.
const FULL: usize = 4 * SEATS;

/// What was compared.
#[derive(Default)]
pub struct Tally {
    runs: usize,
    steps: usize,
    players: usize,
    /// Runs that a refused step ended.
    ended: usize,
    refused: usize,
    stopped: usize,
}

/// That of a number.
pub fn drawn(seed: u64, number: u64) -> Case {
    let random = &mut Xorshift::seeded(seed.wrapping_mul(1 << 32).wrapping_add(number));
    let (width, height) = (1 + below(random, 30), 1 + below(random, 20));
    let share = pick(random, &[0, 2, 6]);
    let map = match below(random, 2) {
        0 => random_map(width, height, share, random),
        _ => walled(width + 2, height + 2, random),
    };
    let (players, steps) = (below(random, PLAYERS), below(random, STEPS + 1) as i32);
    let (players, steps) = match number {
        n if n.is_multiple_of(LONG_EVERY) => (players, MOST_STEPS),
        n if n.is_multiple_of(FULL_EVERY) => (FULL, steps),
        _ => (players, steps),
    };
    let case = playing::drawn(&map, players, steps, random);
    match number % FAULT_EVERY {
        1 => faulty(case, random),
        _ => case,
    }
}

/// With one or two faults, so that their order shows.
pub fn faulty(case: Case, random: &mut Xorshift) -> Case {
    let faults = 1 + below(random, 2);
    (0..faults).fold(case, |case, _| with_fault(case, random))
}

fn with_fault(mut case: Case, random: &mut Xorshift) -> Case {
    let any = random.pattern() as i32;
    match below(random, 6) {
        0 => case.sides = sequences::sides(case.sides, random),
        1 => case.steps = pick(random, &[-1, MOST_STEPS + 1, i32::MIN, i32::MAX, any]),
        2 => case.tunings = vec![ORDINARY; pick(random, &[0, MOST_TUNINGS + 1])],
        3 => case = with_hold(case, random),
        4 => case = with_join(case, random),
        _ => case = with_length(case, random),
    }
    case
}

/// Of one of the tunings, if there is one: also such as is no fault.
fn with_hold(mut case: Case, random: &mut Xorshift) -> Case {
    if !case.tunings.is_empty() {
        let at = below(random, case.tunings.len());
        case.tunings[at][HOOK_HOLD] = any_hold(random);
    }
    case
}

/// Somewhere among the others: of no seat, out of reach, anywhere, or of one who is there.
fn with_join(mut case: Case, random: &mut Xorshift) -> Case {
    let (x, y) = place(&case.map, random);
    let id = any_id(SEATS, random);
    let some_id = case.joins.first().map_or(id, |join| join[0]);
    let joins = [
        [SEATS as i32, x, y],
        [-1, x, y],
        [id, 100_001, y],
        [id, x, i32::MIN],
        [id, 20, 20],
        [some_id, x, y],
    ];
    let at = below(random, case.joins.len() + 1);
    case.joins.insert(at, pick(random, &joins));
    case.targets.insert(at, target(&case.map, random));
    case
}

/// One of them is another.
fn with_length(mut case: Case, random: &mut Xorshift) -> Case {
    let mut lengths = case.lengths();
    let Lengths {
        joins,
        targets,
        tunings,
        result,
    } = &mut lengths;
    let length = match below(random, 4) {
        0 => joins,
        1 => targets,
        2 => tunings,
        _ => result,
    };
    let other = [
        0,
        1,
        length.saturating_sub(1),
        *length + 1,
        *length + 6,
        ROW_NUMBERS,
    ];
    *length = pick(random, &other);
    case.lengths = Some(lengths);
    case
}

/// Where libtw2 stops nothing is compared.
pub fn compare(case: &Case, tally: &mut Tally) -> Result<(), Differs> {
    let [joins, targets, tunings] = case.lent();
    let mut result = vec![UNWRITTEN; case.lengths().result];
    let map = case.told_map();
    let answer = trial::run(
        &lent(&map),
        &joins,
        &targets,
        &tunings,
        case.steps,
        &mut result,
    );
    let Ok((expected, left)) = catch_unwind(|| case.left()) else {
        tally.stopped += 1;
        return Ok(());
    };
    same("answer", number(&answer), expected)?;
    same_numbers("result", &result, &left)?;
    match expected {
        0 => tally.add(case, &left),
        _ => tally.refused += 1,
    }
    Ok(())
}

impl Tally {
    fn add(&mut self, case: &Case, result: &[i32]) {
        for row in result.chunks(ROW_NUMBERS) {
            self.runs += 1;
            self.steps += row[0] as usize;
            self.players += case.joins.len();
            self.ended += usize::from(row[0] < case.steps);
        }
    }
}

impl Display for Tally {
    fn fmt(&self, formatter: &mut Formatter<'_>) -> Written {
        let Tally {
            runs,
            steps,
            players,
            ended,
            refused,
            stopped,
        } = self;
        write!(
            formatter,
            "{runs} runs of {steps} steps, {ended} of them ended by one that was refused, with \
             {players} players; {refused} trials refused, {stopped} on which libtw2 stops"
        )
    }
}

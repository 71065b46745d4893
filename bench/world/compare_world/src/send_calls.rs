//! Calls of a sender on any numbers, through the buffers.

use crate::any_numbers::{self, Numbers, drawn_near};
use crate::differs::{Differs, same, same_numbers};
use crate::receives;
use crate::sequences;
use harness::draw::{any_call_or_hold, any_role};
use harness::encoding::{RECORDS_NUMBERS, decoded, encoded_records, encoded_removed};
use harness::rewriting::rewritten;
use harness::roles::{Ask, REFEREE, check_role};
use harness::sending::{
    Link, MESSAGE_NUMBERS, SENDER_NUMBERS, Sent, all_numbers, decoded_sender, encoded_screen,
    encoded_sender,
};
use harness::{Call, Refusal, SEATS};
use ponguriena::send_buffers::{self, PASSED_NUMBERS};
use port_calls::{call_on, lent, number};
use record_calls::Sequence;
use reference::Xorshift;
use std::fmt::{Display, Formatter, Result as Written};
use std::panic::catch_unwind;
use tile_map::Map;
use tile_map::draw::below;

/// So many calls are made on each buffer, one after another.
const CALLS: usize = 6;

/// What the buffers that a call writes hold before.
const UNWRITTEN: i32 = 77;

/// As the port has it, too.
const _: () = assert!(PASSED_NUMBERS == (1 + 2 * SEATS) * MESSAGE_NUMBERS);

#[derive(Default)]
pub struct Tally {
    accepted: usize,
    /// Refused since the role does not allow them.
    beyond: usize,
    refused: usize,
    stopped: usize,
    /// Numbers that were passed along.
    numbers: usize,
    pub received: receives::Tally,
}

/// The numbers that a call leaves.
#[derive(Clone)]
pub struct Left {
    pub answer: u32,
    pub world: Numbers,
    pub sender: [i32; SENDER_NUMBERS],
    pub records: [i32; RECORDS_NUMBERS],
    pub removed: [i32; SEATS],
    pub removed_count: usize,
    pub passed: [i32; PASSED_NUMBERS],
    pub count: usize,
}

impl Left {
    /// Nothing is written yet.
    fn before(world: Numbers, sender: [i32; SENDER_NUMBERS]) -> Left {
        Left {
            answer: 0,
            world,
            sender,
            records: [UNWRITTEN; RECORDS_NUMBERS],
            removed: [UNWRITTEN; SEATS],
            removed_count: 0,
            passed: [UNWRITTEN; PASSED_NUMBERS],
            count: 0,
        }
    }
}

/// Both sides after the calls of a sequence.
fn played(sequence: &Sequence) -> Link {
    let mut link = Link::fresh();
    for line in &sequence.lines {
        let _ = link.call(&line.told_map(), line.call);
    }
    link
}

pub fn compare(seed: u64, number: u64, tally: &mut Tally) -> Result<(), Differs> {
    let sequence = sequences::drawn(seed, number);
    let link = played(&sequence);
    let mut random = Xorshift::seeded(seed.wrapping_mul(1 << 40).wrapping_add(number));
    let mut world = any_numbers::drawn(&link.world, &mut random);
    let mut sender = drawn_near(encoded_sender(&link.sender), &mut random);
    let mut screen = drawn_near(encoded_screen(&link.screen), &mut random);
    for turn in 0..CALLS {
        let call = match below(&mut random, 2) {
            0 => Call::Step,
            _ => any_call_or_hold(SEATS, &decoded(&world), &sequence.map, &mut random),
        };
        let role = drawn_role(call, &mut random);
        let told = |what: Differs| {
            let numbers = call.numbers();
            what.at(format!("call {} (role {role}, {numbers:?})", turn + 1))
        };
        let before = Left::before(world, sender);
        let left = compare_call(before, &sequence.map, role, call, tally).map_err(told)?;
        (world, sender) = (left.world, left.sender);
        let passed = &left.passed[..left.count];
        let received = &mut tally.received;
        screen = receives::compare(screen, &sequence.map, passed, &mut random, received)
            .map_err(told)?;
    }
    Ok(())
}

/// The referee more often than not.
fn drawn_role(call: Call, random: &mut Xorshift) -> i32 {
    match below(random, 3) {
        0 => any_role(SEATS, Ask::Call(call), random),
        _ => REFEREE,
    }
}

/// What the port left. Where libtw2 stops nothing is compared.
fn compare_call(
    before: Left,
    map: &Map,
    role: i32,
    call: Call,
    tally: &mut Tally,
) -> Result<Left, Differs> {
    let port = left_by_port(before.clone(), map, role, call);
    let Ok(expected) = catch_unwind(|| left_by_original(before, map, role, call)) else {
        tally.stopped += 1;
        return Ok(port);
    };
    same("answer", port.answer, expected.answer)?;
    same_numbers("world", &port.world, &expected.world)?;
    same_numbers("sender", &port.sender, &expected.sender)?;
    same_numbers("records", &port.records, &expected.records)?;
    same_numbers("removed", &port.removed, &expected.removed)?;
    same("removed", port.removed_count, expected.removed_count)?;
    same("numbers passed along", port.count, expected.count)?;
    same_numbers("passed", &port.passed, &expected.passed)?;
    tally.numbers += port.count;
    match port.answer {
        0 => tally.accepted += 1,
        13 => tally.beyond += 1,
        _ => tally.refused += 1,
    }
    Ok(port)
}

/// Joins and inputs are made on the world alone.
fn left_by_port(mut left: Left, map: &Map, role: i32, call: Call) -> Left {
    let map = &lent(map);
    let (world, sender) = (&mut left.world, &mut left.sender);
    let (records, removed) = (&mut left.records, &mut left.removed);
    let passed = &mut left.passed;
    let answer = match call {
        Call::Leave { id } => send_buffers::leave(role, world, sender, id, passed),
        Call::Tune { index, hundredths } => {
            send_buffers::tune(role, world, sender, index, hundredths, passed)
        }
        Call::Step => {
            send_buffers::step(role, world, sender, map, records, removed, passed).map(|counts| {
                left.removed_count = counts.removed;
                counts.passed
            })
        }
        Call::Join { .. } | Call::Input { .. } => {
            call_on(role, world, map, call, records, removed).map(|_| 0)
        }
    };
    left.answer = number(&answer);
    left.count = answer.unwrap_or(0);
    left
}

/// A refused call leaves the numbers as they were, also those that no call has left.
pub fn left_by_original(before: Left, map: &Map, role: i32, call: Call) -> Left {
    let mut world = decoded(&before.world);
    let mut sender = decoded_sender(&before.sender);
    let allowed = check_role(role, Ask::Call(call));
    match allowed.and_then(|()| sender.call(&mut world, map, call)) {
        Ok(sent) => {
            let mut left = with_sent(before, call, &sent);
            left.world = rewritten(left.world, call, &world, &sent.published);
            if !matches!(call, Call::Join { .. } | Call::Input { .. }) {
                left.sender = encoded_sender(&sender);
            }
            left
        }
        Err(refusal) => Left {
            answer: Refusal::number(refusal),
            ..before
        },
    }
}

/// What an accepted call writes beside the world and the sender.
fn with_sent(mut left: Left, call: Call, sent: &Sent) -> Left {
    if let Call::Step = call {
        left.records = encoded_records(&sent.published);
        (left.removed, left.removed_count) = encoded_removed(&sent.published);
    }
    let numbers = all_numbers(&sent.passed);
    left.passed[..numbers.len()].copy_from_slice(&numbers);
    left.count = numbers.len();
    left
}

impl Display for Tally {
    fn fmt(&self, formatter: &mut Formatter<'_>) -> Written {
        let Tally {
            accepted,
            beyond,
            refused,
            stopped,
            numbers,
            received,
        } = self;
        write!(
            formatter,
            "{accepted} calls accepted, {beyond} beyond their role, {refused} refused otherwise, \
             {stopped} on which libtw2 stops, {numbers} numbers passed along; {received}"
        )
    }
}

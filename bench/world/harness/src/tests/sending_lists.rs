//! Lists of calls: the screen shows what the steps took, and a message comes when it is due
//! and at no other time, by a count of its own along the calls.

use crate::draw::{FIRST_SEATS, any_call_or_hold, any_join, extreme_tuning};
use crate::sending::{Link, MOST_STEPS, Passed, Sent, encoded_screen, encoded_sender};
use crate::tunings::{ORDINARY, TUNINGS};
use crate::{Call, SEATS, World};
use original::{CORE_NUMBERS, core_numbers, input_numbers};
use reference::Xorshift;
use tile_map::Map;
use tile_map::draw::{below, random_map};

const LISTS: u64 = 300;
const CALLS: usize = 120;

/// Steps in a row, after the calls of some lists.
const LONG: usize = 200;
const LONG_EVERY: u64 = 10;

/// Along the calls, and of what is passed along alone.
struct Count {
    /// Who has joined with no accepted step since.
    new: [bool; SEATS],
    /// The accepted steps since each one's last message.
    since: [u32; SEATS],
}

/// How often a message came for each reason alone, and how often none did.
#[derive(Default)]
struct Reasons {
    first: usize,
    differs: usize,
    refused: usize,
    long: usize,
    none: usize,
}

fn message_of(sent: &Sent, id: usize) -> Option<Vec<i32>> {
    let numbers = sent.passed.iter().map(|passed| passed.numbers());
    let mut messages = numbers.filter(|numbers| numbers[..2.min(numbers.len())] == [1, id as i32]);
    let message = messages.next();
    assert!(messages.next().is_none());
    message
}

impl Count {
    /// Before the step and after it.
    fn check_step(&mut self, before: &Link, map: &Map, sent: &Sent, reasons: &mut Reasons) {
        for id in 0..SEATS {
            self.since[id] += 1;
            let message = message_of(sent, id);
            if let Some(core) = sent.published.records[id] {
                let mut expected = vec![1, id as i32];
                expected.extend(core_numbers(core));
                expected.extend(input_numbers(before.world.slots[id].input));
                let is_due = self.is_due(before, map, id, core_numbers(core), reasons);
                assert_eq!(message, is_due.then_some(expected));
            } else {
                assert!(message.is_none());
            }
            if message.is_some() {
                self.since[id] = 0;
            }
            self.new[id] = false;
        }
    }

    fn is_due(
        &self,
        before: &Link,
        map: &Map,
        id: usize,
        core: [i32; CORE_NUMBERS],
        reasons: &mut Reasons,
    ) -> bool {
        let copy = before.sender.copies[id];
        assert_eq!(copy.kept, !self.new[id]);
        let stepped = copy.stepped(id, map, before.world.tunings);
        let differs = copy.kept && core_numbers(stepped.core) != core;
        let refused = copy.kept && stepped.refused;
        let long = self.since[id] == MOST_STEPS;
        match (self.new[id], differs, refused, long) {
            (true, ..) => reasons.first += 1,
            (_, true, false, false) => reasons.differs += 1,
            (_, _, true, false) => reasons.refused += 1,
            (_, false, false, true) => reasons.long += 1,
            _ => reasons.none += 1,
        }
        self.new[id] || differs || refused || long
    }
}

fn check_call(link: &mut Link, count: &mut Count, map: &Map, call: Call, reasons: &mut Reasons) {
    let before = link.clone();
    let Ok(sent) = link.call(map, call) else {
        assert_eq!(encoded_sender(&link.sender), encoded_sender(&before.sender));
        return;
    };
    match call {
        Call::Join { id, .. } => count.new[id as usize] = true,
        Call::Leave { id } => count.new[id as usize] = false,
        Call::Step => count.check_step(&before, map, &sent, reasons),
        _ => {}
    }
    let screen = encoded_screen(&link.screen);
    assert_eq!(screen[TUNINGS..], encoded_sender(&link.sender));
    assert_eq!(link.screen.tunings, link.world.tunings);
    if let Call::Step = call {
        check_shown(link, &sent);
    }
}

/// Of everybody who is still there.
fn check_shown(link: &Link, sent: &Sent) {
    assert!(matches!(sent.passed[0], Passed::Mark));
    for id in 0..SEATS {
        let shown = link.screen.shown(id as i32).map(core_numbers).ok();
        let taken = sent.published.records[id].filter(|_| !sent.published.removed[id]);
        assert_eq!(shown, taken.map(core_numbers));
    }
}

/// What the calls of a list are drawn from.
struct Plan {
    seats: usize,
    /// Whether tunings at their ends come and go.
    wild: bool,
}

/// In every fourth list ids are those of all seats, in every third tunings are wild.
fn plan(number: u64) -> Plan {
    let all = number.is_multiple_of(4);
    Plan {
        seats: if all { SEATS } else { FIRST_SEATS },
        wild: number.is_multiple_of(3),
    }
}

/// Mostly of ordinary play.
fn drawn_call(world: &World, map: &Map, plan: &Plan, random: &mut Xorshift) -> Call {
    if !plan.wild || below(random, 6) > 0 {
        return any_call_or_hold(plan.seats, world, map, random);
    }
    let place = below(random, TUNINGS);
    let hundredths = match below(random, 2) {
        0 => extreme_tuning(place, random),
        _ => ORDINARY[place],
    };
    let index = place as i32;
    Call::Tune { index, hundredths }
}

fn check_list(number: u64, reasons: &mut Reasons) {
    let plan = plan(number);
    let mut random = Xorshift::seeded(number);
    let (width, height) = (2 + below(&mut random, 12), 2 + below(&mut random, 8));
    let map = random_map(width, height, 3, &mut random);
    let mut link = Link::fresh();
    let mut count = Count {
        new: [false; SEATS],
        since: [0; SEATS],
    };
    for _ in 0..3 {
        let call = any_join(plan.seats, &map, &mut random);
        check_call(&mut link, &mut count, &map, call, reasons);
    }
    for _ in 0..CALLS {
        let call = drawn_call(&link.world, &map, &plan, &mut random);
        check_call(&mut link, &mut count, &map, call, reasons);
    }
    let steps = if number.is_multiple_of(LONG_EVERY) {
        LONG
    } else {
        0
    };
    for _ in 0..steps {
        check_call(&mut link, &mut count, &map, Call::Step, reasons);
    }
}

#[test]
fn screens_show_what_steps_took_by_messages_that_are_due() {
    let mut reasons = Reasons::default();
    (0..LISTS).for_each(|number| check_list(number, &mut reasons));
    let Reasons {
        first,
        differs,
        refused,
        long,
        none,
    } = reasons;
    let counts = [first, differs, long, none];
    assert!(counts.iter().all(|&count| count >= 30), "{counts:?}");
    assert!(refused >= 3, "{refused}");
}

//! A sequence with a sender beside the world and a screen behind it, through the safe
//! types.

use crate::differs::{Differs, same, same_numbers};
use crate::replay::{STRANGE, expected, lent_map, listed};
use harness::encoding::encoded;
use harness::roles::Ask;
use harness::sending::{Link, Passed, Sent, all_numbers, encoded_screen, encoded_sender};
use harness::{Call, Refusal, SEATS};
use original::core_numbers;
use ponguriena::{CharacterId, Role};
use port_calls::{PortLink, PortSent, id_of, number};
use record_calls::{Line, Sequence};
use std::fmt::{Display, Formatter, Result as Written};

/// What was compared.
#[derive(Default)]
pub struct Tally {
    calls: usize,
    /// Calls that a role does not allow, each before one that the referee makes.
    beyond: usize,
    marks: usize,
    messages: usize,
    removals: usize,
    numbers: usize,
}

pub fn replay(sequence: &Sequence, tally: &mut Tally) -> Result<(), Differs> {
    let (mut port, mut link) = (PortLink::fresh(), Link::fresh());
    for (turn, line) in sequence.lines.iter().enumerate() {
        let at = |what: Differs| what.at(format!("call {}", turn + 1));
        compare_refused(&mut port, line, other_role(line.call, turn), &link).map_err(at)?;
        let sent = link.call(&line.told_map(), line.call);
        compare_line(&mut port, line, &sent, &link).map_err(at)?;
        tally.calls += 1;
        tally.beyond += 1;
        sent.iter().for_each(|sent| tally.add(&sent.passed));
    }
    Ok(())
}

/// Boards and seats take turns; the seat is not the one that a call names.
fn other_role(call: Call, turn: usize) -> Role {
    match (turn % 2, Ask::Call(call).named_id()) {
        (0, _) => Role::Board,
        (_, Some(0)) => Role::Seat(CharacterId(1)),
        _ => Role::Seat(CharacterId(0)),
    }
}

/// Everything stays as it was.
fn compare_refused(
    port: &mut PortLink,
    line: &Line,
    role: Role,
    before: &Link,
) -> Result<(), Differs> {
    let answer = port.call(role, &lent_map(line), line.call);
    same("answer to another role", number(&answer), 13)?;
    compare_numbers(port, before).map_err(|what| what.at("for another role"))
}

fn compare_line(
    port: &mut PortLink,
    line: &Line,
    sent: &Result<Sent, Refusal>,
    after: &Link,
) -> Result<(), Differs> {
    let answer = port.call(Role::Referee, &lent_map(line), line.call);
    let refusal = sent.as_ref().err().map_or(0, |refusal| refusal.number());
    same("answer", number(&answer), refusal)?;
    if let (Ok(answer), Ok(sent)) = (answer, sent) {
        compare_sent(&answer, sent)?;
    }
    compare_numbers(port, after)?;
    compare_shown(port, after)
}

/// Of the world, the sender and the screen.
fn compare_numbers(port: &PortLink, after: &Link) -> Result<(), Differs> {
    same_numbers("world", port.world.numbers(), &encoded(&after.world))?;
    let sender = encoded_sender(&after.sender);
    same_numbers("sender", port.sender.numbers(), &sender)?;
    let screen = encoded_screen(&after.screen);
    same_numbers("screen", port.screen.numbers(), &screen)
}

fn compare_sent(port: &PortSent, sent: &Sent) -> Result<(), Differs> {
    same_numbers("passed", &port.passed, &all_numbers(&sent.passed))?;
    if let Some(records) = &port.records {
        same("records", listed(records), expected(&sent.published))?;
        let removed: Vec<CharacterId> = sent.published.removed_ids().map(id_of).collect();
        same("removed", records.removed(), &removed)?;
    }
    Ok(())
}

fn compare_shown(port: &PortLink, after: &Link) -> Result<(), Differs> {
    for id in (0..SEATS as i32).chain(STRANGE) {
        let shown = after.screen.shown(id).map(core_numbers);
        let answer = port.screen.shown(id_of(id));
        let refusal = shown.err().map_or(0, Refusal::number);
        same("answer of shown", number(&answer), refusal)?;
        let record = answer.ok().map(|core| core.numbers());
        same("shown", record, shown.ok())?;
    }
    Ok(())
}

impl Tally {
    fn add(&mut self, passed: &[Passed]) {
        let count = |is: fn(&&Passed) -> bool| passed.iter().filter(is).count();
        self.marks += count(|passed| matches!(passed, Passed::Mark));
        self.messages += count(|passed| matches!(passed, Passed::Message { .. }));
        self.removals += count(|passed| matches!(passed, Passed::Removal { .. }));
        self.numbers += all_numbers(passed).len();
    }
}

impl Display for Tally {
    fn fmt(&self, formatter: &mut Formatter<'_>) -> Written {
        let Tally {
            calls,
            beyond,
            marks,
            messages,
            removals,
            numbers,
        } = self;
        write!(
            formatter,
            "{calls} calls, {beyond} beyond a role between them, {numbers} numbers passed along, among them {marks} marks, \
             {messages} messages and {removals} removals"
        )
    }
}

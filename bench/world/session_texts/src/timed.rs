//! Texts to time the session program on, nearly as long as a text may be.

use crate::Text;
use crate::maps::walled_map;
use crate::play::joined;
use crate::written::sequence_text;
use harness::SEATS;
use harness::draw::{any_input, input_at_somebody, place};
use record_calls::Sequence;
use reference::Xorshift;

const LENGTH: usize = 65_000;

/// Everybody is told something else after so many steps.
const STEPS: usize = 100;

pub fn timed() -> [Text; 2] {
    let mut random = Xorshift::default();
    [
        Text {
            kind: "every seat stepping",
            bytes: lengthened(stepping, &mut random),
        },
        Text {
            kind: "joins and inputs",
            bytes: lengthened(joins_and_inputs, &mut random),
        },
    ]
}

type More = fn(Sequence, &mut Xorshift) -> Sequence;

/// Calls are added until the text is long enough. Without spikes, so that everybody stays.
fn lengthened(more: More, random: &mut Xorshift) -> Vec<u8> {
    let map = walled_map(random).without_spikes();
    let mut sequence = joined(Sequence::on(&map), SEATS, random);
    loop {
        sequence = more(sequence, random);
        let mut text = sequence_text(&sequence);
        if text.len() >= LENGTH {
            let last = text[..LENGTH].iter().rposition(|&byte| byte == b'\n');
            text.truncate(last.expect("a line") + 1);
            return text;
        }
    }
}

fn stepping(mut sequence: Sequence, random: &mut Xorshift) -> Sequence {
    for id in 0..SEATS as i32 {
        let input = input_at_somebody(&sequence.world, id, random);
        sequence = sequence.told(id, input);
    }
    sequence.steps(STEPS)
}

fn joins_and_inputs(mut sequence: Sequence, random: &mut Xorshift) -> Sequence {
    for id in 0..SEATS as i32 {
        let (x, y) = place(&sequence.map, random);
        let input = any_input(random);
        sequence = sequence.leave(id).join(id, x, y).told(id, input);
    }
    sequence
}

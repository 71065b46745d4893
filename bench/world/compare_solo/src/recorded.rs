//! Pairs as lines of vectors, with what document 01's world over libtw2 tells of the id.

use crate::pairs::{Pair, drawn};
use harness::encoding::encoded_records;
use harness::{Call, NOTHING, SEATS};
use record_calls::digest::digest;
use record_calls::{Line, Sequence};

/// So many pairs are recorded.
const PAIRS: usize = 6;

const SEED: u64 = 10;

/// Those in which no step is refused.
pub fn pairs() -> impl Iterator<Item = (i32, [Sequence; 2])> {
    let played = (0..).map(|number| played(&drawn(SEED, number, 0)));
    let accepted = |(_, pair): &(i32, [Sequence; 2])| pair.iter().all(accepted);
    played.filter(accepted).take(PAIRS)
}

/// The steps of the second list are to tell what those of the first told.
pub fn lines(id: i32, [first, second]: &[Sequence; 2]) -> Vec<String> {
    let mut told = first.lines.iter().filter(|line| is_step(line));
    let expected = second.lines.iter().map(|line| {
        let same = if is_step(line) { told.next() } else { None };
        text(line, id, same.unwrap_or(line))
    });
    let expected: Vec<String> = expected.collect();
    let first = first.lines.iter().map(|line| text(line, id, line));
    first.chain(expected).collect()
}

fn played(pair: &Pair) -> (i32, [Sequence; 2]) {
    let sequences = pair.lists.each_ref().map(|calls| {
        let mut sequence = Sequence::on(&pair.map);
        calls.iter().for_each(|&call| sequence.call(call));
        sequence
    });
    (pair.id, sequences)
}

fn accepted(sequence: &Sequence) -> bool {
    let mut steps = sequence.lines.iter().filter(|line| is_step(line));
    steps.all(|line| line.answer.is_ok())
}

fn is_step(line: &Line) -> bool {
    matches!(line.call, Call::Step)
}

/// With the id, and what is seen of it after `shown`.
fn text(line: &Line, id: i32, shown: &Line) -> String {
    line.text_with(&[id as u32, seen(shown, id as usize)])
}

/// The record that was taken, whether somebody is there after it, and the floor mark.
fn seen(line: &Line, id: usize) -> u32 {
    let records = encoded_records(line.answer.as_ref().unwrap_or(&NOTHING));
    let size = records.len() / SEATS;
    let slot = line.after.slots[id];
    let mut numbers = records[id * size..][..size].to_vec();
    numbers.extend([slot.present, slot.grounded].map(i32::from));
    digest(&numbers)
}

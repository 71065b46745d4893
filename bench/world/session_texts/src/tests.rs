//! That the texts are what they are meant to be.

use crate::{LONG_OUTPUTS, Text, drawn, faults, games, play, recorded, timed};
use record_calls::{Line, Sequence};
use reference::Xorshift;
use session::{MOST_BYTES, run};
use std::collections::BTreeSet;

const MOST_RECORDED_BYTES: usize = 2_500_000;

/// With these a text may still be well.
const DOUBTFUL: [&str; 7] = [
    "other values",
    "other byte",
    "side",
    "line left out",
    "line twice",
    "lines exchanged",
    "cut off",
];

const TOO_LONG: [&str; 2] = ["a text too long", "many calls"];

fn output(text: &Text) -> String {
    let mut out = Vec::new();
    run(&text.bytes, &mut out).expect("a vector takes all");
    String::from_utf8(out).expect("digits and names")
}

/// The second word of each line but the first.
fn answers(output: &str) -> Vec<u32> {
    let answer = |line: &str| line.split(' ').nth(1)?.parse().ok();
    output.lines().skip(1).filter_map(answer).collect()
}

fn is_at_fault(text: &Text) -> bool {
    answers(&output(text)).last() == Some(&6)
}

fn is_fault(kind: &str) -> bool {
    faults::all().iter().any(|(name, _)| *name == kind)
}

#[test]
fn the_recorded_set_is_not_too_large() {
    let texts = recorded();
    assert!((200..=300).contains(&texts.len()));
    let sizes = texts
        .iter()
        .map(|text| text.bytes.len() + output(text).len());
    assert!(sizes.sum::<usize>() < MOST_RECORDED_BYTES);
}

/// A map at fault is text at fault, so 1 is none of them.
#[test]
fn every_answer_is_recorded() {
    let texts = recorded();
    let given: BTreeSet<u32> = texts
        .iter()
        .flat_map(|text| answers(&output(text)))
        .collect();
    assert_eq!(given, [0, 2, 3, 4, 5, 6, 7, 8, 9, 16].into());
}

#[test]
fn faults_are_at_fault_and_games_are_not() {
    for text in (0..400).map(|number| drawn(5, number)).chain(recorded()) {
        if !DOUBTFUL.contains(&text.kind) && !TOO_LONG.contains(&text.kind) {
            let bytes = text.bytes.escape_ascii();
            assert_eq!(
                is_at_fault(&text),
                is_fault(text.kind),
                "{}: {bytes}",
                text.kind
            );
        }
    }
}

#[test]
fn every_kind_is_drawn() {
    let kinds: BTreeSet<&str> = (0..100).map(|number| drawn(1, number).kind).collect();
    assert_eq!(kinds.len(), games().len() + faults::all().len());
}

#[test]
fn lengths_are_at_the_limit() {
    for text in recorded() {
        let length = text.bytes.len();
        match text.kind {
            "nearly the longest text" => assert_eq!(length, MOST_BYTES - 1),
            "the longest text" => assert_eq!(length, MOST_BYTES),
            "a text too long" => assert!(length > MOST_BYTES && is_at_fault(&text)),
            _ => assert!(length < MOST_BYTES),
        }
    }
}

#[test]
fn two_outputs_are_long() {
    let is_long = |text: &Text| output(text).len() > MOST_BYTES;
    let texts = recorded();
    let long = texts.iter().filter(|text| is_long(text));
    assert!(long.map(|text| text.kind).eq(LONG_OUTPUTS));
}

#[test]
fn a_seed_gives_the_same_texts_again() {
    for number in 0..80 {
        assert_eq!(drawn(9, number).bytes, drawn(9, number).bytes);
    }
    assert_ne!(drawn(1, 0).bytes, drawn(2, 0).bytes);
    assert_ne!(drawn(1, 0).bytes, drawn(1, 2 * games().len() as u64).bytes);
}

/// In most games somebody dies, and in most somebody is left.
#[test]
fn spikes_kill_some() {
    let mut random = Xorshift::default();
    let games = [(); 100].map(|()| play::spiked(&mut random));
    let kills = |line: &Line| line.answer.is_ok_and(|told| told.removed.contains(&true));
    let killed = games.iter().filter(|game| game.lines.iter().any(kills));
    let is_left = |game: &&Sequence| game.world.slots.iter().any(|slot| slot.present);
    let counts = [killed.count(), games.iter().filter(is_left).count()];
    assert!(counts.iter().all(|&count| count > 50), "{counts:?}");
}

#[test]
fn timed_texts_are_long_and_not_at_fault() {
    for text in timed() {
        assert!((64_900..=65_000).contains(&text.bytes.len()));
        assert!(!is_at_fault(&text));
    }
}

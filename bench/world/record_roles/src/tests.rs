//! That the sequences are what the vectors are meant to hold.

mod told;

use crate::sequence::RoleLine;
use crate::{RoleSequence, all_sequences};
use harness::encoding::encoded;
use harness::roles::{Ask, REFEREE, Role};
use harness::{Call, World};
use record_calls::told_map;
use std::collections::{BTreeMap, BTreeSet};

const LINE_LENGTH: usize = 189;
const LINES: std::ops::Range<usize> = 500..1000;

/// The kinds of asks.
const JOIN: i32 = 1;
const LEAVE: i32 = 2;
const INPUT: i32 = 3;
const STEP: i32 = 4;
const TUNE: i32 = 5;
const RECORD: i32 = 6;
const FLOOR_MARK: i32 = 7;
const STORED_INPUT: i32 = 8;
const TUNING: i32 = 9;

const NOT_ALLOWED: u32 = 13;

/// Who asks.
#[derive(Clone, Copy, Debug, Eq, Ord, PartialEq, PartialOrd)]
enum Who {
    Referee,
    /// For itself.
    Own,
    Seat,
    Board,
    Nobody,
}

fn who(line: &RoleLine) -> Who {
    match Role::of(line.role) {
        Some(Role::Referee) => Who::Referee,
        Some(Role::Seat(id)) if line.ask.named_id() == Some(id) => Who::Own,
        Some(Role::Seat(_)) => Who::Seat,
        Some(Role::Board) => Who::Board,
        None => Who::Nobody,
    }
}

fn kind(line: &RoleLine) -> i32 {
    line.ask.numbers()[0]
}

/// Each line with the world before it.
fn each_line(mut check: impl FnMut(&World, &RoleLine)) {
    for sequence in all_sequences() {
        let mut world = World::fresh();
        for line in sequence.lines {
            check(&world, &line);
            world = line.after;
        }
    }
}

/// What the referee is answered who asks the same.
fn as_referee(world: &World, line: &RoleLine) -> u32 {
    let map = told_map(&line.map, line.sides);
    let answer = world.clone().ask(&map, REFEREE, line.ask);
    answer.err().map_or(0, |no| no.number())
}

#[test]
fn lines_have_one_length_and_are_not_too_many() {
    let sequences = all_sequences();
    let lines = || sequences.iter().flat_map(|sequence| &sequence.lines);
    assert!(lines().all(|line| line.text().len() == LINE_LENGTH));
    let count = lines().count();
    assert!(LINES.contains(&count), "{count}");
    let starts = lines().filter(|line| line.text().starts_with('n'));
    assert_eq!(starts.count(), sequences.len());
}

/// The words behind the map: the sides, the role, the kind and its arguments, the answer,
/// and two digests.
#[test]
fn the_role_comes_before_the_kind() {
    each_line(|_, line| {
        let text = line.text();
        let words: Vec<u32> = text
            .split(' ')
            .skip(4)
            .map(|word| u32::from_str_radix(word, 16).expect("a word"))
            .collect();
        assert_eq!(words.len(), 13);
        assert_eq!(words[2].cast_signed(), line.role);
        assert_eq!(words[3].cast_signed(), kind(line));
        assert_eq!(words[10], line.number());
        assert!(line.number() == 0 || words[12] == 0);
    });
}

/// Those of the referee for each kind.
const ANSWERS: [(i32, &[u32]); 9] = [
    (JOIN, &[0, 1, 2, 4, 5, 7]),
    (LEAVE, &[0, 2, 8]),
    (INPUT, &[0, 2, 8]),
    (STEP, &[0, 1, 9]),
    (TUNE, &[0, 3, 16]),
    (RECORD, &[0, 2, 8]),
    (FLOOR_MARK, &[0, 2, 8]),
    (STORED_INPUT, &[0, 2, 8]),
    (TUNING, &[0, 3]),
];

/// A seat for itself asks what names an id.
fn expected(who: Who, kind: i32, answers: &'static [u32]) -> &'static [u32] {
    match (who, kind) {
        (Who::Referee, _) | (Who::Own, INPUT) | (Who::Board, RECORD | FLOOR_MARK) => answers,
        (Who::Own, STEP | TUNE | TUNING) => &[],
        _ => &[NOT_ALLOWED],
    }
}

#[test]
fn every_role_is_given_just_its_answers() {
    let mut given: BTreeMap<(Who, i32), BTreeSet<u32>> = BTreeMap::new();
    each_line(|_, line| {
        let answers = given.entry((who(line), kind(line))).or_default();
        answers.insert(line.number());
    });
    for who in [Who::Referee, Who::Own, Who::Seat, Who::Board, Who::Nobody] {
        for (kind, answers) in ANSWERS {
            let found = given.remove(&(who, kind)).unwrap_or_default();
            let expected = expected(who, kind, answers).iter().copied();
            assert_eq!(found, expected.collect(), "{who:?}, {kind}");
        }
    }
}

/// For each kind of ask: what the referee would have been told.
#[test]
fn not_allowed_comes_before_every_other_refusal() {
    let mut hidden: BTreeMap<i32, BTreeSet<u32>> = BTreeMap::new();
    each_line(|world, line| {
        if line.number() == NOT_ALLOWED {
            let answers = hidden.entry(kind(line)).or_default();
            answers.insert(as_referee(world, line));
        } else {
            assert_eq!(line.number(), as_referee(world, line));
        }
    });
    for (kind, answers) in ANSWERS {
        let found = &hidden[&kind];
        assert_eq!(*found, answers.iter().copied().collect(), "{kind}");
    }
}

#[test]
fn refused_asks_and_reads_leave_the_world() {
    each_line(|world, line| {
        let is_call = matches!(line.ask, Ask::Call(_));
        if line.number() != 0 || !is_call {
            assert!(encoded(world) == encoded(&line.after));
        }
    });
}

/// Nothing but its own input, and that is seen to change.
#[test]
fn a_seat_changes_its_own_input() {
    let mut changed = BTreeSet::new();
    each_line(|world, line| {
        if let (Some(Role::Seat(id)), 0) = (Role::of(line.role), line.number()) {
            let mut before = world.clone();
            let seat = id as usize;
            before.slots[seat].input = line.after.slots[seat].input;
            assert!(encoded(&before) == encoded(&line.after));
            if encoded(world) != encoded(&line.after) {
                changed.insert(id);
            }
        }
    });
    assert!(changed.contains(&0) && changed.contains(&63), "{changed:?}");
}

/// Seats 0 and 63 are the ends of those that there are; 64 and the last number are none.
#[test]
fn ids_and_roles_go_to_their_ends() {
    let mut own = BTreeSet::new();
    let mut roles = BTreeSet::new();
    each_line(|_, line| {
        roles.insert(line.role);
        if let Ask::Call(Call::Input { id, .. }) = line.ask {
            own.extend((id == line.role).then_some((id, line.number())));
        }
    });
    for expected in [
        (0, 0),
        (63, 0),
        (9, 8),
        (64, 2),
        (-1, 2),
        (-2, 13),
        (-3, 13),
    ] {
        assert!(own.contains(&expected), "{expected:?}");
    }
    for role in [i32::MIN, -3, -2, -1, 0, 63, 64, i32::MAX] {
        assert!(roles.contains(&role), "{role}");
    }
}

/// The world in the end and every other answer are those of the list without what is beyond
/// a role.
#[test]
fn what_is_beyond_a_role_may_be_struck_out() {
    for sequence in all_sequences() {
        let mut struck = RoleSequence::on(&sequence.map);
        let others = |line: &&RoleLine| line.number() != NOT_ALLOWED;
        let others: Vec<&RoleLine> = sequence.lines.iter().filter(others).collect();
        for line in &others {
            struck.with_sides(line.sides, line.role, line.ask);
        }
        let texts = |line: &RoleLine| line.text()[1..].to_string();
        let without: Vec<String> = struck.lines.iter().map(texts).collect();
        let with: Vec<String> = others.into_iter().map(texts).collect();
        assert_eq!(without, with);
    }
}

//! That the trials are worth recording.

use crate::{Case, all_cases};
use harness::trial::ROW_NUMBERS;
use std::collections::{BTreeMap, BTreeSet};

/// A row as the steps that were done, and distance and step of each seat with somebody.
fn rows(case: &Case) -> Vec<(i32, Vec<(i32, i32)>)> {
    let result = case.answer().unwrap_or_default();
    let rows = result.chunks(ROW_NUMBERS).map(|row| {
        let seats = row[1..].chunks(3).filter(|seat| seat[0] == 1);
        (row[0], seats.map(|seat| (seat[1], seat[2])).collect())
    });
    rows.collect()
}

#[test]
fn every_answer_is_recorded() {
    let mut answers = BTreeMap::new();
    for case in all_cases() {
        *answers.entry(case.left().0).or_insert(0) += 1;
    }
    let numbers: Vec<u32> = answers.keys().copied().collect();
    assert_eq!(numbers, [0, 1, 2, 4, 5, 7, 15, 16, 17], "{answers:?}");
}

/// Runs of 0 and 3,000 steps, ones that end early, and players that come near at the start, on
/// the way and at last.
#[test]
fn runs_of_all_kinds() {
    let (mut early, mut reached, mut first, mut last) = (0, 0, 0, 0);
    let mut steps = BTreeSet::new();
    for case in all_cases() {
        for (done, seats) in rows(&case) {
            steps.insert(done);
            early += usize::from(done < case.steps);
            for (distance, step) in seats {
                reached += usize::from(distance == 0 && step > 0);
                first += usize::from(step == 0);
                last += usize::from(step > 0 && step == done);
            }
        }
    }
    assert!(steps.contains(&0) && steps.contains(&3000));
    let counts = [early, reached, first, last];
    assert!(counts.iter().all(|&count| count >= 10), "{counts:?}");
}

/// Often the second tuning tells something else than the first.
#[test]
fn tunings_differ() {
    let cases = all_cases();
    let several = cases.iter().map(rows).filter(|rows| rows.len() > 1);
    let differ = several.filter(|rows| rows[0] != rows[1]).count();
    assert!(differ > 15, "{differ}");
}

#[test]
fn lines_of_a_kind_have_one_length() {
    let mut lengths: BTreeMap<char, BTreeSet<usize>> = BTreeMap::new();
    for line in all_cases().iter().flat_map(Case::lines) {
        let kind = line.chars().next().expect("a kind");
        lengths.entry(kind).or_default().insert(line.len());
    }
    let expected = [('j', [46].into()), ('n', [171].into()), ('t', [172].into())];
    assert_eq!(lengths, expected.into());
}

//! That the pairs are worth comparing.

use crate::heats::{Tally, compare};
use crate::pairs::drawn;

const PAIRS: u64 = 100;

#[test]
fn others_differ_and_the_id_is_there() {
    let mut tally = Tally::default();
    for number in 0..PAIRS {
        assert!(compare(&drawn(1, number, 0).with_holds(number), &mut tally).is_ok());
    }
    assert!(tally.present * 2 > tally.steps);
    assert!(tally.beside_others * 10 > tally.steps * 9);
}

/// With player collision and player hooking on, many pairs differ.
#[test]
fn others_matter_where_they_may() {
    let differs = |number: &u64| compare(&drawn(1, *number, 100), &mut Tally::default()).is_err();
    let count = (0..PAIRS).filter(differs).count();
    assert!(count as u64 * 3 > PAIRS, "{count}");
}

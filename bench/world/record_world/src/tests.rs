//! That the cases are what the vectors are meant to hold.

use crate::all_cases;
use crate::case::Case;
use crate::maps::{open_tile, solid_tile};
use original::vec2;

const LINE_LENGTH: usize = 171;

#[test]
fn lines_have_one_length() {
    for case in all_cases() {
        assert_eq!(case.text().len(), LINE_LENGTH);
    }
}

#[test]
fn every_answer_occurs() {
    let first_words: Vec<u32> = all_cases().iter().map(|case| case.answer()[0]).collect();
    for word in [0, 1, 3, 9] {
        assert!(first_words.contains(&word));
    }
}

#[test]
fn refusals_begin_where_the_sum_rounds_up() {
    assert_eq!(line_answer(0x477f_fffe), 1);
    assert_eq!(line_answer(0x477f_ffff), 9);
    assert_eq!(move_answer(65535.5f32.next_down()), 0);
    assert_eq!(move_answer(65535.5), 9);
}

fn line_answer(length: u32) -> u32 {
    let to = vec2::new(f32::from_bits(length), 0.0);
    Case::line(&solid_tile(), vec2::default(), to).answer()[0]
}

fn move_answer(speed: f32) -> u32 {
    let vel = vec2::new(speed, 0.0);
    Case::moved(&open_tile(), vec2::default(), vel, vec2::default()).answer()[0]
}

//! A scene as a session text, for the session program.

use crate::ground::Ground;
use crate::scene::Scene;

/// Codes of the calls, and how many numbers a line has.
const JOIN: i32 = 1;
const INPUT: i32 = 3;
const STEP: i32 = 4;
const TUNE: i32 = 5;
const CALL_NUMBERS: usize = 7;

/// The scene on the map of its joins.
pub fn session_text(scene: &Scene) -> String {
    let mut text = map_text(&scene.ground.smallest());
    let mut call = |numbers: &[i32]| {
        let mut line = numbers.to_vec();
        line.resize(CALL_NUMBERS, 0);
        let words: Vec<String> = line.iter().map(i32::to_string).collect();
        text.push_str(&words.join(" "));
        text.push('\n');
    };
    for (id, ((x, y), input)) in (0..).zip(scene.places.into_iter().zip(scene.inputs)) {
        call(&[JOIN, id, x, y]);
        call(&[&[INPUT, id], &input.numbers()[..]].concat());
    }
    for step in 0..scene.steps {
        for (index, value) in scene.tuned_before(step) {
            call(&[TUNE, index, value]);
        }
        call(&[STEP]);
    }
    text
}

/// A session text without calls.
pub fn map_text(ground: &Ground) -> String {
    let tiles = ground.tiles();
    let mut text = format!("width height\n{} {}\ntiles\n", ground.width, ground.height);
    for row in tiles.chunks(ground.width as usize) {
        let words: Vec<String> = row.iter().map(u8::to_string).collect();
        text.push_str(&words.join(" "));
        text.push('\n');
    }
    text.push_str("call a b c d e f\n");
    text
}

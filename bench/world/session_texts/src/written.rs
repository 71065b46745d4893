//! A map and calls as the text of a session.

use harness::Call;
use record_calls::Sequence;
use session::{CALL_NAMES, MAP_NAMES, TILE_NAMES};
use std::fmt::Display;
use tile_map::Map;

/// All but the calls.
pub fn map_text(map: &Map) -> String {
    let (width, height) = (map.width, map.height);
    let mut text = format!("{MAP_NAMES}\n{width} {height}\n{TILE_NAMES}\n");
    for row in map.tiles.chunks(width) {
        text += &line(row);
    }
    text + CALL_NAMES + "\n"
}

pub fn call_text(call: Call) -> String {
    line(&call.numbers())
}

/// All calls on the sequence's map, also those that were told other sides.
pub fn sequence_text(sequence: &Sequence) -> Vec<u8> {
    let mut text = map_text(&sequence.map);
    for line in &sequence.lines {
        text += &call_text(line.call);
    }
    text.into_bytes()
}

fn line(values: &[impl Display]) -> String {
    let words: Vec<String> = values.iter().map(|value| value.to_string()).collect();
    words.join(" ") + "\n"
}

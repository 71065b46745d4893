//! The session program of document 01: a map and calls as text, and the answers as text.

mod output;
#[cfg(test)]
mod tests;
mod text;

pub use text::{CALL_NAMES, MAP_NAMES, MOST_BYTES, TILE_NAMES};

use harness::{Refusal, World};
use std::io::{Result, Write};

/// Ends at the first fault, which is answered with 6.
pub fn run(text: &[u8], out: &mut impl Write) -> Result<()> {
    output::print_heading(out)?;
    let mut number = 1;
    let Some((mut text, map)) = text::begin(text) else {
        return output::print_answer(out, number, Err(Refusal::Text));
    };
    let mut world = World::fresh();
    while !text.is_at_end() {
        let Some(call) = text.call() else {
            return output::print_answer(out, number, Err(Refusal::Text));
        };
        output::print_answer(out, number, world.call(&map, call))?;
        number += 1;
    }
    Ok(())
}

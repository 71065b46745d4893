//! Prints test vectors for the program `test_physics`: ticks and moves with
//! the answers of libtw2. All lines have the same length.

mod case;
mod crowd;
mod holds;
mod hooks;
mod meetings;
mod moves;
mod scene;
mod seats;
mod steering;
#[cfg(test)]
mod tests;

use case::Case;
use reference::Xorshift;
use std::io::Result;
use vector_lines::print_once;

fn main() -> Result<()> {
    print_once(all_cases().iter().map(Case::text))
}

fn all_cases() -> Vec<Case> {
    let mut random = Xorshift::default();
    let mut cases = hooks::hook_cases(&mut random);
    cases.extend(meetings::meeting_cases(&mut random));
    cases.extend(steering::steering_cases(&mut random));
    cases.extend(moves::move_cases(&mut random));
    cases.extend(seats::seat_cases());
    cases.extend(holds::hold_cases());
    cases
}

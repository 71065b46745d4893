//! Trials, with the answers of the harness.

mod case;
mod holds;
mod lengths;
mod paths;
pub mod playing;
mod refusals;
#[cfg(test)]
mod tests;
pub mod tunings;

pub use case::{Case, Lengths, UNWRITTEN};

use reference::Xorshift;

pub fn all_cases() -> Vec<Case> {
    let mut random = Xorshift::default();
    let mut cases = paths::path_cases();
    cases.extend(refusals::refused_cases());
    cases.extend(lengths::length_cases());
    cases.extend(playing::drawn_cases(&mut random));
    cases.extend(holds::hold_cases());
    cases
}

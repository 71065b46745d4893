//! Prints test vectors for the program `test_records`: states and records with
//! what libtw2 makes of them. All lines have the same length.

mod case;
mod records;
mod states;
#[cfg(test)]
mod tests;
mod values;

use case::Case;
use reference::Xorshift;
use std::io::Result;
use vector_lines::print_once;

fn main() -> Result<()> {
    print_once(all_cases().iter().map(Case::text))
}

fn all_cases() -> Vec<Case> {
    let mut random = Xorshift::default();
    let mut cases = states::state_cases(&mut random);
    cases.extend(records::record_cases(&mut random));
    cases
}

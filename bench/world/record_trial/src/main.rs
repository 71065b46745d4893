//! Prints test vectors for the program `test_trial`: a line for each trial, then one for each of
//! its joins and one for each of its tunings. All lines of a kind have the same length.

use record_trial::{Case, all_cases};
use std::io::Result;
use vector_lines::print_all;

fn main() -> Result<()> {
    print_all(all_cases().iter().flat_map(Case::lines))
}

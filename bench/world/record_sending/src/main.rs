//! Prints test vectors for the program `test_sending`: a call on each line. All
//! lines have the same length.

use record_sending::{all_sequences, sent_lines};
use std::io::Result;
use vector_lines::print_all;

fn main() -> Result<()> {
    let sequences = all_sequences();
    let lines = sequences.iter().flat_map(sent_lines);
    print_all(lines.map(|line| line.text()))
}

//! Prints test vectors for the program `test_world`: a call on each line. All
//! lines have the same length.

use record_calls::all_sequences;
use std::io::Result;
use vector_lines::print_all;

fn main() -> Result<()> {
    let lines = all_sequences()
        .into_iter()
        .flat_map(|sequence| sequence.lines);
    print_all(lines.map(|line| line.text()))
}

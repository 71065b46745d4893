//! Prints test vectors for the program `test_search`: a call or a search on each line. All lines
//! have the same length.

use record_search::all_sequences;
use std::io::Result;
use vector_lines::print_all;

fn main() -> Result<()> {
    let sequences = all_sequences();
    let lines = sequences.iter().flat_map(|sequence| &sequence.lines);
    print_all(lines.map(|line| line.text()))
}

//! Prints test vectors for the program `test_solo`: pairs of solo heats, a call on each
//! line. All lines have the same length.

use compare_solo::recorded::{lines, pairs};
use std::io::Result;
use vector_lines::print_all;

fn main() -> Result<()> {
    print_all(pairs().flat_map(|(id, pair)| lines(id, &pair)))
}

//! Prints test vectors for the program `test_tiles`: calls of `check_line` and
//! `move_box` with the answers of libtw2. All lines have the same length.

mod boxes;
mod case;
mod lines;
mod maps;
#[cfg(test)]
mod tests;

use case::Case;
use reference::Xorshift;
use std::io::Result;
use vector_lines::print_once;

fn main() -> Result<()> {
    print_once(all_cases().iter().map(Case::text))
}

fn all_cases() -> Vec<Case> {
    let mut random = Xorshift::default();
    let maps = maps::all_maps(&mut random);
    let mut cases = lines::line_cases(&maps, &mut random);
    cases.extend(boxes::box_cases(&maps, &mut random));
    cases
}

//! Prints the lines of test vectors.

use std::collections::HashSet;
use std::io::{BufWriter, Result, Write, stdout};

pub fn print_all(lines: impl IntoIterator<Item = String>) -> Result<()> {
    let mut out = BufWriter::new(stdout().lock());
    for line in lines {
        writeln!(out, "{line}")?;
    }
    out.flush()
}

/// Leaves out what was printed before.
pub fn print_once(lines: impl IntoIterator<Item = String>) -> Result<()> {
    let mut seen = HashSet::new();
    print_all(lines.into_iter().filter(|line| seen.insert(line.clone())))
}

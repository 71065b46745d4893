//! Standard input to standard output.

use session::{MOST_BYTES, run};
use std::io::{BufWriter, Read, Result, Write, stdin, stdout};

fn main() -> Result<()> {
    // One byte more than fits tells that a text is too long.
    let mut text = Vec::new();
    let mut input = stdin().lock().take(MOST_BYTES as u64 + 1);
    input.read_to_end(&mut text)?;
    let mut out = BufWriter::new(stdout().lock());
    run(&text, &mut out)?;
    out.flush()
}

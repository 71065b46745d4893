//! Running a session program.

use std::io::{self, Write};
use std::process::{Command, Output, Stdio};
use std::thread;

/// All that a program gives, which is more than what it prints.
pub fn output_of(program: &str, text: &[u8]) -> Result<Output, String> {
    run(program, text).map_err(|error| format!("{program}: {error}"))
}

fn run(program: &str, text: &[u8]) -> io::Result<Output> {
    let mut child = Command::new(program)
        .stdin(Stdio::piped())
        .stdout(Stdio::piped())
        .stderr(Stdio::piped())
        .spawn()?;
    let mut input = child.stdin.take().expect("it is piped");
    thread::scope(|scope| {
        // A program may end before it has read all.
        scope.spawn(move || input.write_all(text));
        child.wait_with_output()
    })
}

//! Times whole runs of two session programs on the same texts. Arguments: the
//! reference, the program, and a file for the text that they read.

use session_texts::{Text, output_of, timed};
use std::env;
use std::fs::{self, File};
use std::io;
use std::process::{Command, ExitCode, Stdio};
use std::time::Instant;

const RUNS: usize = 10;

fn main() -> ExitCode {
    let arguments: Vec<String> = env::args().skip(1).collect();
    match time(&arguments) {
        Ok(()) => ExitCode::SUCCESS,
        Err(error) => {
            eprintln!("{error}");
            ExitCode::FAILURE
        }
    }
}

fn time(arguments: &[String]) -> Result<(), String> {
    let [reference, program, file] = arguments else {
        return Err("three arguments are to be named".into());
    };
    println!(
        "{:<26} {:>7} {:>9} {:>9} {:>7}",
        "text", "bytes", "port ms", "Rust ms", "ratio"
    );
    for text in timed() {
        if output_of(reference, &text.bytes)? != output_of(program, &text.bytes)? {
            return Err(format!("{}: the programs differ", text.kind));
        }
        print_row(reference, program, file, &text).map_err(|error| error.to_string())?;
    }
    Ok(())
}

/// The fastest run of each counts.
fn print_row(reference: &str, program: &str, file: &str, text: &Text) -> io::Result<()> {
    fs::write(file, &text.bytes)?;
    let mut port = f64::INFINITY;
    let mut rust = f64::INFINITY;
    // In turn, so that a change of the clock rate meets both.
    for _ in 0..RUNS {
        port = port.min(milliseconds(program, file)?);
        rust = rust.min(milliseconds(reference, file)?);
    }
    let (kind, bytes, ratio) = (text.kind, text.bytes.len(), port / rust);
    println!("{kind:<26} {bytes:>7} {port:>9.2} {rust:>9.2} {ratio:>7.2}");
    Ok(())
}

/// From its start to its end.
fn milliseconds(program: &str, file: &str) -> io::Result<f64> {
    let mut command = Command::new(program);
    command.stdin(File::open(file)?).stdout(Stdio::null());
    let start = Instant::now();
    command.status()?;
    Ok(start.elapsed().as_secs_f64() * 1000.0)
}

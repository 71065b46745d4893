//! Runs two session programs on drawn texts and compares every byte. Arguments:
//! the reference, the program, the file that keeps a text on which they differ,
//! how many texts, and a seed.

use session_texts::{drawn, output_of};
use std::process::ExitCode;
use std::{env, fs};

fn main() -> ExitCode {
    let arguments: Vec<String> = env::args().skip(1).collect();
    match compare(&arguments) {
        Ok(true) => ExitCode::SUCCESS,
        Ok(false) => ExitCode::FAILURE,
        Err(error) => {
            eprintln!("{error}");
            ExitCode::FAILURE
        }
    }
}

fn compare(arguments: &[String]) -> Result<bool, String> {
    let [reference, program, kept, count, seed] = arguments else {
        return Err("five arguments are to be named".into());
    };
    let number = |word: &String| {
        word.parse::<u64>()
            .map_err(|_| format!("{word}: no number"))
    };
    let (count, seed) = (number(count)?, number(seed)?);
    for number in 0..count {
        let text = drawn(seed, number);
        let [expected, printed] = [reference, program].map(|path| output_of(path, &text.bytes));
        let (expected, printed) = (expected?, printed?);
        if printed != expected {
            fs::write(kept, &text.bytes).map_err(|error| format!("{kept}: {error}"))?;
            println!(
                "text {number} of seed {seed} ({}) differs; it is kept in {kept}",
                text.kind
            );
            print_difference(&expected.stdout, &printed.stdout);
            return Ok(false);
        }
    }
    println!("{count} texts of seed {seed} were compared: no byte differs");
    Ok(true)
}

fn print_difference(expected: &[u8], printed: &[u8]) {
    let lines = |bytes: &[u8]| {
        String::from_utf8_lossy(bytes)
            .lines()
            .map(String::from)
            .collect()
    };
    let (expected, printed): (Vec<String>, Vec<String>) = (lines(expected), lines(printed));
    let same = expected.iter().zip(&printed).take_while(|(a, b)| a == b);
    let first = same.count();
    let line_of = |lines: &[String]| lines.get(first).cloned().unwrap_or("no line".into());
    println!("output line {}:", first + 1);
    println!("expected: {}", line_of(&expected));
    println!("printed:  {}", line_of(&printed));
}

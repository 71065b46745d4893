//! What a session prints.

use harness::{Published, Refusal};
use original::{CORE_NUMBERS, core_numbers};
use std::io::{Result, Write};

const HEADING: &str = "call answer id tick x y vel_x vel_y angle direction jumped hooked_player \
                       hook_state hook_tick hook_x hook_y hook_dx hook_dy";

const ACCEPTED: u32 = 0;
const NOBODY: i32 = -1;

pub fn print_heading(out: &mut impl Write) -> Result<()> {
    writeln!(out, "{HEADING}")
}

/// A line for each record, or one where there is none. Nothing tells of a removal.
pub fn print_answer(
    out: &mut impl Write,
    number: u32,
    answer: std::result::Result<Published, Refusal>,
) -> Result<()> {
    let records = match answer {
        Ok(published) => published.records,
        Err(refusal) => return print_nobody(out, number, refusal.number()),
    };
    if records.iter().all(Option::is_none) {
        return print_nobody(out, number, ACCEPTED);
    }
    for (id, record) in (0..).zip(records) {
        if let Some(record) = record {
            print_line(out, number, ACCEPTED, id, core_numbers(record))?;
        }
    }
    Ok(())
}

fn print_nobody(out: &mut impl Write, number: u32, answer: u32) -> Result<()> {
    print_line(out, number, answer, NOBODY, [0; CORE_NUMBERS])
}

fn print_line(
    out: &mut impl Write,
    number: u32,
    answer: u32,
    id: i32,
    record: [i32; CORE_NUMBERS],
) -> Result<()> {
    write!(out, "{number} {answer} {id}")?;
    for value in record {
        write!(out, " {value}")?;
    }
    writeln!(out)
}

//! How often everything came.

use crate::function::{ALL, Function};
use crate::played::{Compared, Played};
use std::fmt::{Display, Formatter, Result as Written};

/// One more than the largest answer.
const ANSWERS: usize = 18;

#[derive(Clone, Default, Debug, PartialEq)]
pub struct Tally {
    rows: [Row; ALL.len()],
}

/// Of one function.
#[derive(Clone, Copy, Default, Debug, PartialEq)]
struct Row {
    answers: [u64; ANSWERS],
    /// Those on which libtw2 stops; all others are compared.
    stopped: u64,
}

impl Tally {
    /// Fails on an answer that the function may not give.
    pub fn add(&mut self, played: Played) -> Result<(), String> {
        let row = &mut self.rows[played.function as usize];
        if !played.function.answers().contains(&played.answer) {
            return Err(format!(
                "{} answered {}",
                played.function.name(),
                played.answer
            ));
        }
        row.answers[played.answer as usize] += 1;
        row.stopped += u64::from(played.compared == Compared::Stopped);
        Ok(())
    }

    fn sum(&self, count: impl Fn(&Row) -> u64) -> u64 {
        self.rows.iter().map(count).sum()
    }

    /// What may come and never came.
    pub fn missing(&self) -> Vec<(Function, u32)> {
        let each = ALL.iter().zip(&self.rows);
        each.flat_map(|(&(function, _, answers), row)| {
            let never = |&&answer: &&u32| row.answers[answer as usize] == 0;
            answers
                .iter()
                .filter(never)
                .map(move |&answer| (function, answer))
        })
        .collect()
    }
}

impl Row {
    fn calls(&self) -> u64 {
        self.answers.iter().sum()
    }
}

impl Display for Tally {
    fn fmt(&self, formatter: &mut Formatter<'_>) -> Written {
        for ((_, name, answers), row) in ALL.iter().zip(&self.rows) {
            write!(formatter, "{name}: {};", row.calls())?;
            for &answer in *answers {
                write!(formatter, " {answer}: {}", row.answers[answer as usize])?;
            }
            writeln!(formatter)?;
        }
        write!(formatter, "refusals in all:")?;
        for answer in 1..ANSWERS {
            match self.sum(|row| row.answers[answer]) {
                0 => {}
                count => write!(formatter, " {answer}: {count}")?,
            }
        }
        let (calls, stopped) = (self.sum(Row::calls), self.sum(|row| row.stopped));
        write!(
            formatter,
            "\n{calls} calls, the fences looked at after each; {} compared with the harness, \
             {stopped} on which libtw2 stops",
            calls - stopped
        )
    }
}

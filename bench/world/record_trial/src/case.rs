//! One trial as the numbers that are lent for it, and as lines of text.

use harness::Refusal;
use harness::trial::{JOIN_NUMBERS, ROW_NUMBERS, TARGET_NUMBERS, lent_trial};
use harness::tunings::TUNINGS;
use record_calls::digest::digest;
use record_calls::{line_text, told_map};
use reference::Bits;
use tile_map::Map;

/// What the result holds before it is written.
pub const UNWRITTEN: i32 = 77;

#[derive(Clone)]
pub struct Case {
    /// Its tiles are lent.
    pub map: Map,
    /// As told.
    pub sides: (u32, u32),
    /// Id, x, y.
    pub joins: Vec<[i32; JOIN_NUMBERS]>,
    /// Column, row; one for each join.
    pub targets: Vec<[i32; TARGET_NUMBERS]>,
    pub tunings: Vec<[i32; TUNINGS]>,
    pub steps: i32,
    /// Those that are lent, if they are not the right ones.
    pub lengths: Option<Lengths>,
}

/// In numbers.
#[derive(Clone, Copy)]
pub struct Lengths {
    pub joins: usize,
    pub targets: usize,
    pub tunings: usize,
    pub result: usize,
}

impl Case {
    /// With nobody, under no tuning.
    pub fn on(map: &Map, steps: i32) -> Case {
        Case {
            map: map.clone(),
            sides: (map.width as u32, map.height as u32),
            joins: Vec::new(),
            targets: Vec::new(),
            tunings: Vec::new(),
            steps,
            lengths: None,
        }
    }

    pub fn player(mut self, join: [i32; JOIN_NUMBERS], target: [i32; TARGET_NUMBERS]) -> Case {
        self.joins.push(join);
        self.targets.push(target);
        self
    }

    pub fn under(mut self, tunings: &[[i32; TUNINGS]]) -> Case {
        self.tunings.extend(tunings);
        self
    }

    pub fn lengths(&self) -> Lengths {
        self.lengths.unwrap_or(Lengths {
            joins: self.joins.len() * JOIN_NUMBERS,
            targets: self.targets.len() * TARGET_NUMBERS,
            tunings: self.tunings.len() * TUNINGS,
            result: self.tunings.len() * ROW_NUMBERS,
        })
    }

    /// The map with the sides that are told, which may be none.
    pub fn told_map(&self) -> Map {
        told_map(&self.map, self.sides)
    }

    /// Joins, targets and tunings, each of the length in which it is lent.
    pub fn lent(&self) -> [Vec<i32>; 3] {
        let lengths = self.lengths();
        [
            lent(&self.joins, lengths.joins),
            lent(&self.targets, lengths.targets),
            lent(&self.tunings, lengths.tunings),
        ]
    }

    /// What the harness tells.
    pub fn answer(&self) -> Result<Vec<i32>, Refusal> {
        let [joins, targets, tunings] = self.lent();
        let room = self.lengths().result;
        lent_trial(
            &self.told_map(),
            &joins,
            &targets,
            &tunings,
            self.steps,
            room,
        )
    }

    /// The number, and the result as it is left.
    pub fn left(&self) -> (u32, Vec<i32>) {
        match self.answer() {
            Ok(rows) => (0, rows),
            Err(refusal) => (refusal.number(), vec![UNWRITTEN; self.lengths().result]),
        }
    }

    /// Its own line has the sides that are told, how many joins and tunings follow, the lengths,
    /// the steps, the number that is answered and the digest of the result.
    pub fn lines(&self) -> Vec<String> {
        let (number, result) = self.left();
        let lengths = self.lengths();
        let counts = [
            self.joins.len(),
            self.tunings.len(),
            lengths.joins,
            lengths.targets,
            lengths.tunings,
            lengths.result,
        ];
        let mut words = vec![self.sides.0, self.sides.1];
        words.extend(counts.map(|count| count as u32));
        words.extend([self.steps.to_pattern(), number, digest(&result)]);
        let mut lines = vec![line_text(true, &self.map, &words)];
        let players = self.joins.iter().zip(&self.targets);
        lines.extend(players.map(|(join, target)| words_text('j', &[&join[..], target].concat())));
        lines.extend(self.tunings.iter().map(|tunings| words_text('t', tunings)));
        lines
    }
}

/// With zeros behind where it is longer.
fn lent<const N: usize>(rows: &[[i32; N]], length: usize) -> Vec<i32> {
    let mut numbers = rows.concat();
    numbers.resize(length, 0);
    numbers
}

fn words_text(kind: char, numbers: &[i32]) -> String {
    let words = numbers
        .iter()
        .map(|number| format!(" {:08x}", number.to_pattern()));
    format!("{kind}{}", words.collect::<String>())
}

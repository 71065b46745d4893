//! What happened, beside the answers.

use std::fmt::{Display, Formatter, Result as Written};

#[derive(Clone, Default, Debug, PartialEq)]
pub struct Course {
    pub lives: u64,
    /// How often numbers were overwritten that are kept.
    pub overwritten: u64,
    /// The most that were there in a step.
    pub crowd: usize,
    pub removed: usize,
}

/// What is published of a seat.
const PUBLISHED: usize = 16;

impl Course {
    /// A step was accepted.
    pub fn add_step(&mut self, records: &[i32], removed: usize) {
        let seats = records.chunks(PUBLISHED);
        let present = seats.filter(|seat| seat[0] != 0).count();
        self.crowd = self.crowd.max(present);
        self.removed += removed;
    }
}

impl Display for Course {
    fn fmt(&self, formatter: &mut Formatter<'_>) -> Written {
        let Course {
            lives,
            overwritten,
            crowd,
            removed,
        } = self;
        write!(
            formatter,
            "{lives} servers, {overwritten} times numbers overwritten that one keeps, up to \
             {crowd} players at once, {removed} removed"
        )
    }
}

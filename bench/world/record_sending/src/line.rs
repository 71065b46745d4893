//! A call that a sender makes on a world, as a line of text.

use harness::Refusal;
use harness::sending::{Link, Sent, all_numbers, encoded_screen, encoded_sender};
use record_calls::digest::digest;
use record_calls::{Line, Sequence};

pub struct SentLine<'a> {
    pub line: &'a Line,
    pub answer: Result<Sent, Refusal>,
    pub before: Link,
    /// All that was passed along has arrived.
    pub after: Link,
}

/// From a fresh world, with no copies on either side.
pub fn sent_lines(sequence: &Sequence) -> Vec<SentLine<'_>> {
    let mut link = Link::fresh();
    let sent = |line| {
        let before = link.clone();
        let answer = link.call(&Line::told_map(line), line.call);
        SentLine {
            line,
            answer,
            before,
            after: link.clone(),
        }
    };
    sequence.lines.iter().map(sent).collect()
}

impl SentLine<'_> {
    /// The numbers that are passed along.
    pub fn passed(&self) -> Vec<i32> {
        let sent = self.answer.as_ref().ok();
        sent.map_or_else(Vec::new, |sent| all_numbers(&sent.passed))
    }

    /// The same with their count behind them: a bare mark is the number 0 alone.
    fn counted(&self) -> Vec<i32> {
        let mut numbers = self.passed();
        numbers.push(numbers.len() as i32);
        numbers
    }

    /// As that of a call, with the digests of what is passed along, of the sender and of
    /// the screen.
    pub fn text(&self) -> String {
        self.line.text_with(&[
            digest(&self.counted()),
            digest(&encoded_sender(&self.after.sender)),
            digest(&encoded_screen(&self.after.screen)),
        ])
    }
}

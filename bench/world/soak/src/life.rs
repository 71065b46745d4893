//! What a server does from its start until it is started anew.

use harness::SEATS;
use reference::Xorshift;
use tile_map::draw::{below, pick};

#[derive(Clone, Copy, Eq, PartialEq)]
pub enum Kind {
    /// Nothing but calls, the game's tunings and small changes.
    Ordinary,
    /// Tunings at their ends.
    Extreme,
    /// Now and then numbers are overwritten.
    Damaged,
}

pub struct Life {
    pub kind: Kind,
    /// So many may be there.
    pub seats: usize,
    /// Whether who is missing joins at once.
    pub full: bool,
    /// Whether most steps, leaves and tunes go through the sender, and to the screen.
    pub linked: bool,
    /// Calls that are left.
    pub calls: usize,
}

/// Where others are over soon, since little can be played on what they leave.
const SHORT: usize = 300;

/// The first in four is by far the longest.
const LONG: [usize; 4] = [20_000, 3_000, 1_000, 500];

impl Life {
    pub fn drawn(random: &mut Xorshift) -> Life {
        let kind = match below(random, 12) {
            0..=1 => Kind::Ordinary,
            2..=5 => Kind::Extreme,
            _ => Kind::Damaged,
        };
        let calls = match kind {
            Kind::Ordinary => pick(random, &LONG),
            _ => 1 + below(random, 2 * SHORT),
        };
        Life {
            kind,
            seats: pick(random, &[2, 4, 6, 10, 16, SEATS]),
            full: below(random, 3) == 0,
            linked: below(random, 3) == 0,
            calls,
        }
    }

    pub fn over() -> Life {
        Life {
            kind: Kind::Ordinary,
            seats: SEATS,
            full: false,
            linked: false,
            calls: 0,
        }
    }
}

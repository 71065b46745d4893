//! Why a call is declined.

/// With the numbers of document 01 and of the change requests.
#[derive(Clone, Copy, Debug, Eq, Hash, Ord, PartialEq, PartialOrd)]
pub enum Refusal {
    Map = 1,
    Id = 2,
    TuningIndex = 3,
    Place = 4,
    NotClear = 5,
    Text = 6,
    Present = 7,
    Absent = 8,
    TooFar = 9,
    TickTooLarge = 10,
    NotAllowed = 13,
    Trial = 15,
    Hold = 16,
    /// Of the C interface: a buffer that was lent.
    Length = 17,
}

impl Refusal {
    pub fn number(self) -> u32 {
        self as u32
    }

    /// This one where it fits.
    pub fn when(self, fits: bool) -> Result<(), Refusal> {
        if fits { Err(self) } else { Ok(()) }
    }
}

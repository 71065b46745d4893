//! What differs.

use std::fmt::{Debug, Display, Formatter, Result as Written};

#[derive(Debug)]
pub struct Differs(String);

impl Differs {
    /// Where in a longer story it was.
    pub fn at(self, place: impl Display) -> Differs {
        Differs(format!("{place}: {}", self.0))
    }
}

impl Display for Differs {
    fn fmt(&self, formatter: &mut Formatter<'_>) -> Written {
        formatter.write_str(&self.0)
    }
}

pub fn same<T: Debug + PartialEq>(what: &str, port: T, expected: T) -> Result<(), Differs> {
    if port == expected {
        return Ok(());
    }
    Err(Differs(format!("{what}: {port:?}, not {expected:?}")))
}

/// Names the first number that differs.
pub fn same_numbers<T: Debug + PartialEq>(
    what: &str,
    port: &[T],
    expected: &[T],
) -> Result<(), Differs> {
    // Most often all of them are the same, and then no text is needed.
    if port == expected {
        return Ok(());
    }
    same("length", port.len(), expected.len())?;
    for (index, (port, expected)) in port.iter().zip(expected).enumerate() {
        same(&format!("{what}, number {index}"), port, expected)?;
    }
    Ok(())
}

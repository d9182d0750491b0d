use std::error::Error;
use std::fmt;

/// Why a call was declined, which then changed nothing.
#[derive(Clone, Copy, Debug, PartialEq, Eq, Hash)]
pub enum Refusal {
    /// An extent is above 65,536, or the storage is too short (9).
    NoRoom,
    /// The point lies outside the extent (11).
    Outside,
    /// The value is too wide for the kind of point (13).
    TooWide,
    /// Another number of `bench.h`; no call of this crate meets it.
    Other(u32),
}

impl Refusal {
    /// The number, as `bench.h` has it.
    pub fn number(self) -> u32 {
        match self {
            Refusal::NoRoom => 9,
            Refusal::Outside => 11,
            Refusal::TooWide => 13,
            Refusal::Other(number) => number,
        }
    }

    pub(crate) fn check(status: u32) -> Result<(), Refusal> {
        match status {
            0 => Ok(()),
            9 => Err(Refusal::NoRoom),
            11 => Err(Refusal::Outside),
            13 => Err(Refusal::TooWide),
            number => Err(Refusal::Other(number)),
        }
    }
}

impl fmt::Display for Refusal {
    fn fmt(&self, f: &mut fmt::Formatter<'_>) -> fmt::Result {
        match self {
            Refusal::NoRoom => write!(f, "an extent is too large, or the storage is too short (9)"),
            Refusal::Outside => write!(f, "the point lies outside the extent (11)"),
            Refusal::TooWide => write!(f, "the value is too wide for the kind of point (13)"),
            Refusal::Other(number) => write!(f, "declined ({number})"),
        }
    }
}

impl Error for Refusal {}

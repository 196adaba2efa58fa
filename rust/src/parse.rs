//! Why a text is no bit, no vector or no op.
use crate::Refusal;
use std::{error::Error, fmt};

#[derive(Clone, Copy, Debug, PartialEq, Eq, Hash)]
pub enum ParseError {
    /// A character is none of 0, 1, x and z. It stands at this byte of the text, counted from 0.
    NotABit { found: char, at: usize },
    /// One bit is wanted, and the text has none or several characters.
    NotOneBit,
    /// No op has the name.
    NotAnOp,
    /// The vector is too wide, or a lent plane is not exactly its word count: 1 or 5.
    Refused(Refusal),
}

impl fmt::Display for ParseError {
    fn fmt(&self, f: &mut fmt::Formatter) -> fmt::Result {
        match self {
            ParseError::NotABit { found, at } => write!(f, "{found:?} at byte {at} is none of 0, 1, x and z"),
            ParseError::NotOneBit => write!(f, "one bit is wanted: 0, 1, x or z"),
            ParseError::NotAnOp => write!(f, "no op has the name"),
            ParseError::Refused(refusal) => refusal.fmt(f),
        }
    }
}

impl Error for ParseError {}

impl From<Refusal> for ParseError {
    fn from(refusal: Refusal) -> ParseError {
        ParseError::Refused(refusal)
    }
}

//! A four-state bit, its code and its character.
use crate::ParseError;
use std::fmt;
use std::str::FromStr;

/// 0 and 1 are known; x and z are unknown.
#[derive(Clone, Copy, Debug, PartialEq, Eq, Hash)]
pub enum LogicBit {
    Zero = 0,
    One = 1,
    X = 2,
    Z = 3,
}

impl LogicBit {
    /// The four bits in the order of their codes.
    pub const ALL: [LogicBit; 4] = [LogicBit::Zero, LogicBit::One, LogicBit::X, LogicBit::Z];

    /// 0, 1, 2 for x, 3 for z.
    pub fn to_code(self) -> u8 {
        self as u8
    }

    /// The bit of a code; a number above 3 is taken modulo 4.
    #[inline]
    pub fn from_code(code: u8) -> LogicBit {
        match code % 4 {
            0 => LogicBit::Zero,
            1 => LogicBit::One,
            2 => LogicBit::X,
            _ => LogicBit::Z,
        }
    }

    /// 0, 1, x or z.
    pub fn to_char(self) -> char {
        match self {
            LogicBit::Zero => '0',
            LogicBit::One => '1',
            LogicBit::X => 'x',
            LogicBit::Z => 'z',
        }
    }
}

impl fmt::Display for LogicBit {
    fn fmt(&self, f: &mut fmt::Formatter) -> fmt::Result {
        f.pad(self.to_char().encode_utf8(&mut [0; 1]))
    }
}

impl TryFrom<char> for LogicBit {
    type Error = ParseError;

    fn try_from(found: char) -> Result<LogicBit, ParseError> {
        let bit = LogicBit::ALL.into_iter().find(|bit| bit.to_char() == found);
        bit.ok_or(ParseError::NotABit { found, at: 0 })
    }
}

impl FromStr for LogicBit {
    type Err = ParseError;

    fn from_str(text: &str) -> Result<LogicBit, ParseError> {
        let mut chars = text.chars();
        match (chars.next(), chars.next()) {
            (Some(found), None) => LogicBit::try_from(found),
            _ => Err(ParseError::NotOneBit),
        }
    }
}

//! Why a call was not done.
use std::{error::Error, fmt};

/// The refusals by name; [`Refusal::number`] gives the number of each.
// As wide as the width of a header, whose place it takes in a `Result`: one of another size costs each call 2 to 5 ns.
#[derive(Clone, Copy, Debug, PartialEq, Eq, Hash)]
#[repr(u32)]
pub enum Refusal {
    /// 1: the width is above 1,048,576.
    TooWide = 1,
    /// 2: a plane is not exactly its word count; a float's planes are not empty.
    PlaneLength = 2,
    /// 3: a bit is set at or above the width.
    BitAboveWidth = 3,
    /// 4: a fill of width 0.
    EmptyFill = 4,
    /// 5: an output plane is not exactly the result's word count; the text for a literal is not exactly as long as the literal.
    OutputLength = 5,
    /// 6: the step list breaks its format or its 65,536 bytes.
    BadFormat = 6,
    /// 7: the arms of sel differ in width, or one is a fill.
    BadArms = 7,
    /// 11: an operand names a cell that is not yet filled.
    NoSuchCell = 11,
    /// 12: there are 320 cells already.
    StoreFull = 12,
    /// 13: an arena behind the last cell, or a scratch plane, has too few words.
    NoRoom = 13,
    /// 14: the arenas differ in length, or store and arenas disagree.
    BadStore = 14,
    /// 15: the text is no sized literal, or the vector to write as one is a fill or not 1 to 4,096 bits wide.
    BadLiteral = 15,
}

impl Refusal {
    pub const ALL: [Refusal; 12] = [
        Refusal::TooWide,
        Refusal::PlaneLength,
        Refusal::BitAboveWidth,
        Refusal::EmptyFill,
        Refusal::OutputLength,
        Refusal::BadFormat,
        Refusal::BadArms,
        Refusal::NoSuchCell,
        Refusal::StoreFull,
        Refusal::NoRoom,
        Refusal::BadStore,
        Refusal::BadLiteral,
    ];

    pub fn number(self) -> u8 {
        self as u8
    }

    /// The refusal that has the number, if one has.
    pub fn from_number(number: u8) -> Option<Refusal> {
        Refusal::ALL.into_iter().find(|r| r.number() == number)
    }

    /// The condition in words.
    fn reason(self) -> &'static str {
        match self {
            Refusal::TooWide => "the width is above 1,048,576 bits",
            Refusal::PlaneLength => "a plane does not have exactly the words of its width, or a real comes with words",
            Refusal::BitAboveWidth => "a bit is set at or above the width",
            Refusal::EmptyFill => "a fill has width 0",
            Refusal::OutputLength => "an output plane does not have exactly the words of the result, or an output text its bytes",
            Refusal::BadFormat => "the text is no step list, or it is longer than 65,536 bytes",
            Refusal::BadArms => "the arms of a selection differ in width, or one of them is a fill",
            Refusal::NoSuchCell => "an operand names a cell that is not filled",
            Refusal::StoreFull => "all 320 cells of the store are filled",
            Refusal::NoRoom => "an arena behind the last cell, or a scratch plane, has too few words for the new cell",
            Refusal::BadStore => "the arenas differ in length, or the store does not agree with them",
            Refusal::BadLiteral => "the text is no sized literal, or the vector to write as one is a fill or not 1 to 4,096 bits wide",
        }
    }

    /// What a call that answers 0 or a refusal's number says.
    #[inline]
    pub(crate) fn of_call(answer: u8) -> Result<(), Refusal> {
        match answer {
            0 => Ok(()),
            n => Err(Refusal::of_refused(n)),
        }
    }

    /// What a call that answers a refusal's number says.
    #[cold]
    fn of_refused(number: u8) -> Refusal {
        Refusal::from_number(number).unwrap_or_else(|| unreachable!("no refusal has the number {number}"))
    }
}

impl fmt::Display for Refusal {
    fn fmt(&self, f: &mut fmt::Formatter) -> fmt::Result {
        write!(f, "refused by {}: {}", self.number(), self.reason())
    }
}

impl Error for Refusal {}

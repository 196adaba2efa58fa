//! A vector's header, an operand, the check of a vector, and the constructors. A constructor writes two lent planes whole and gives the
//! vector's header. A width above [`MAX_WIDTH`] becomes that. A plane that is not exactly
//! [`word_count`](crate::planes::word_count) words of the width is refused by 5, and nothing is written.
use crate::{raw, LogicBit, ParseError, Refusal, MAX_WIDTH};

/// A vector's width and marks; its planes come beside it.
///
/// Every operator of two vectors (and, or, xor, merge, equality, the case forms, wildcard equality) reads them alike, at the larger width. A fill
/// is stretched: all its bits become its bit 0, and it is then unsigned. The shorter vector is extended by its top bit, x and z too, if both are
/// signed, else by 0; an empty one by 0. Elsewhere, but for equality with a real, a fill is its own bits.
#[repr(C)]
#[derive(Clone, Copy, Debug, Default, PartialEq, Eq, Hash)]
pub struct Header {
    pub width: u32,
    pub is_signed: bool,
    pub is_fill: bool,
}

/// An operand of equality, truth and the logical operators: a vector, by its header, or a real, whose planes are empty.
#[derive(Clone, Copy, Debug, PartialEq)]
pub enum Operand {
    Vector(Header),
    Real(f64),
}

impl Operand {
    /// How an operand is passed: whether it is a real, then a header and a real, of which one counts.
    #[inline(always)]
    pub(crate) fn parts(self) -> (bool, Header, f64) {
        match self {
            Operand::Vector(header) => (false, header, 0.0),
            Operand::Real(real) => (true, Header::default(), real),
        }
    }
}

/// The header of a call that wrote a vector.
#[inline]
pub(crate) fn header(r: raw::HeaderResult) -> Result<Header, Refusal> {
    Refusal::of_call(r.refusal)?;
    Ok(Header {
        width: r.width,
        is_signed: r.is_signed,
        is_fill: r.is_fill,
    })
}

// In each call below a pointer and a length are those of one slice, which is lent for as long as the call runs; a slice that is lent for
// writing overlaps no other.

/// Whether header and planes are a vector, as every operator asks of an operand: refused by 1 (width above
/// [`MAX_WIDTH`]), 2 (a plane that is not exactly its word count), 3 (a bit set at or above the width) or 4 (a fill of
/// width 0), in this order.
#[inline]
pub fn check_vector(h: Header, value: &[u64], unknown: &[u64]) -> Result<(), Refusal> {
    Refusal::of_call(unsafe { raw::vowherunga_check_vector(h, value.as_ptr(), value.len(), unknown.as_ptr(), unknown.len()) })
}

/// All x.
#[inline]
pub fn new(width: u32, value: &mut [u64], unknown: &mut [u64]) -> Result<Header, Refusal> {
    header(unsafe { raw::vowherunga_new(width, value.as_mut_ptr(), value.len(), unknown.as_mut_ptr(), unknown.len()) })
}

/// All 0.
#[inline]
pub fn zero(width: u32, value: &mut [u64], unknown: &mut [u64]) -> Result<Header, Refusal> {
    header(unsafe { raw::vowherunga_zero(width, value.as_mut_ptr(), value.len(), unknown.as_mut_ptr(), unknown.len()) })
}

/// The bits of a number.
#[inline]
pub fn from_u64(val: u64, width: u32, value: &mut [u64], unknown: &mut [u64]) -> Result<Header, Refusal> {
    header(unsafe { raw::vowherunga_from_u64(val, width, value.as_mut_ptr(), value.len(), unknown.as_mut_ptr(), unknown.len()) })
}

/// The unsigned vector of a text: one of 0, 1, x and z for each bit, highest first. The text is refused, and nothing is written, at its first
/// character that is no bit, then by 1 above [`MAX_WIDTH`] bits, then by 5 as in the other constructors. Literals such as `8'hzx` are read by
/// [`literal::read`](crate::literal::read).
///
/// ```
/// use vowherunga::{value, ParseError};
///
/// let (mut v, mut u) = ([0], [0]);
/// assert_eq!(value::parse("01xz", &mut v, &mut u).unwrap().width, 4);
/// assert_eq!((v, u), ([0b0101], [0b0011]));
/// let error = value::parse("01_x", &mut v, &mut u).unwrap_err();
/// assert_eq!(error, ParseError::NotABit { found: '_', at: 2 });
/// assert_eq!(error.to_string(), "'_' at byte 2 is none of 0, 1, x and z");
/// ```
pub fn parse(text: &str, value: &mut [u64], unknown: &mut [u64]) -> Result<Header, ParseError> {
    let bit = |(at, found): (usize, char)| LogicBit::try_from(found).map_err(|_| ParseError::NotABit { found, at });
    text.char_indices().try_for_each(|place| bit(place).map(drop))?;
    // Each character is a byte.
    let width = u32::try_from(text.len()).ok().filter(|width| *width <= MAX_WIDTH);
    let header = zero(width.ok_or(Refusal::TooWide)?, value, unknown)?;
    for (i, place) in text.char_indices().rev().enumerate() {
        let code = u64::from(bit(place)?.to_code());
        value[i / 64] |= (code & 1) << (i % 64);
        unknown[i / 64] |= (code >> 1) << (i % 64);
    }
    Ok(header)
}

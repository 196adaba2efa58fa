//! Sized literals of IEEE 1800-2017 (5.7.1), read and written: a size of 1 to 4,096 bits, an apostrophe, an optional s for a signed vector, a
//! base (b, o, d or h) and a value, with nothing before, between or behind.
//!
//! There may be any number of digits. The value of a b, o or h literal has one for each 1, 3 or 4 bits: of its base, x, or z, which may be written `?`. Too few digits are extended
//! on the left by x or z if the first digit is one, else by 0, also if the vector is signed; of too many the upper bits go. A d literal is a decimal
//! number modulo 2 to the size, or a single x or z. Letters stand in either case. After the first digit of size or value there may be underscores.
//! The size has no leading 0.
//!
//! ```
//! use vowherunga::planes::word_count;
//! use vowherunga::{literal, Refusal};
//!
//! # fn main() -> Result<(), Refusal> {
//! // The header tells how many words to lend.
//! let header = literal::header(b"8'hzx")?;
//! assert_eq!((header.width, header.is_signed, header.is_fill), (8, false, false));
//! let words = word_count(header.width);
//! let (mut v, mut u) = (vec![0; words], vec![0; words]);
//! assert_eq!(literal::read(b"8'hzx", &mut v, &mut u)?, header);
//! assert_eq!((v[0], u[0]), (0b1111_0000, 0b1111_1111));
//!
//! // It is written in binary, a digit for each bit.
//! let mut text = vec![0; literal::length(header)?];
//! literal::write(header, &v, &u, &mut text)?;
//! assert_eq!(text, b"8'bzzzzxxxx");
//!
//! // A leading z is extended; a size of 0 is refused.
//! literal::read(b"8'o?x", &mut v, &mut u)?;
//! assert_eq!((v[0], u[0]), (0b1111_1000, 0b1111_1111));
//! assert_eq!(literal::header(b"0'b1"), Err(Refusal::BadLiteral));
//! # Ok(())
//! # }
//! ```
use crate::value;
use crate::{raw, Header, Refusal};

// In each call below a pointer and a length are those of one slice, which is lent for as long as the call runs; a slice that is lent for
// writing overlaps no other.

/// The header of a literal's vector, which is no fill; 15 if the text is no literal.
#[inline]
pub fn header(text: &[u8]) -> Result<Header, Refusal> {
    value::header(unsafe { raw::vowherunga_literal_header(text.as_ptr(), text.len()) })
}

/// Writes a literal's vector into two lent planes, whole, and gives its header. Refused by 15 if the text is no literal, then by 5 where a plane is
/// not exactly [`word_count`](crate::planes::word_count) words of the size.
#[inline]
pub fn read(text: &[u8], value: &mut [u64], unknown: &mut [u64]) -> Result<Header, Refusal> {
    value::header(unsafe {
        raw::vowherunga_read_literal(
            text.as_ptr(),
            text.len(),
            value.as_mut_ptr(),
            value.len(),
            unknown.as_mut_ptr(),
            unknown.len(),
        )
    })
}

/// How many bytes the literal of a vector has. Refused by 1 (width above [`MAX_WIDTH`](crate::MAX_WIDTH)), 4 (a fill of width 0), then by 15 for
/// any other fill and for a width that is not 1 to 4,096.
#[inline]
pub fn length(h: Header) -> Result<usize, Refusal> {
    let r = unsafe { raw::vowherunga_literal_length(h) };
    Refusal::of_call(r.refusal)?;
    Ok(r.length)
}

/// Writes a vector as a binary literal in lower case, without an underscore: reading it gives the same vector. Refused by 1 to 4 as in
/// [`check_vector`](value::check_vector), by 15 as in [`length`], then by 5 where the text is not exactly as long as the literal.
#[inline]
pub fn write(h: Header, value: &[u64], unknown: &[u64], text: &mut [u8]) -> Result<(), Refusal> {
    Refusal::of_call(unsafe {
        raw::vowherunga_write_literal(
            h,
            value.as_ptr(),
            value.len(),
            unknown.as_ptr(),
            unknown.len(),
            text.as_mut_ptr(),
            text.len(),
        )
    })
}

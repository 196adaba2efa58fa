//! A real as a vector.
use crate::value::header;
use crate::{raw, Header, Refusal};

/// The real rounded to an integer, halves away from zero, modulo 2 to the width; 0 if it is infinite or NaN. The result is unsigned; width 0
/// is taken as 1. Refused by 1 above [`MAX_WIDTH`](crate::MAX_WIDTH), then by 5 where an output plane is not exactly its word count.
#[inline]
pub fn from_real_wrapped(f: f64, width: u32, value: &mut [u64], unknown: &mut [u64]) -> Result<Header, Refusal> {
    // A pointer and a length are those of one slice, lent for as long as the call runs; the two overlap nowhere.
    header(unsafe { raw::vowherunga_from_real_wrapped(f, width, value.as_mut_ptr(), value.len(), unknown.as_mut_ptr(), unknown.len()) })
}

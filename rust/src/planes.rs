//! Bits and words of a vector in two lent planes. Each call refuses, in this order, by 1 (width above [`MAX_WIDTH`]), 2 (a plane that is not
//! exactly [`word_count`] words) and 3 (a bit set at or above the width; not for [`mask_top`]), and a refused call writes nothing.
use crate::reduce::bit;
use crate::{raw, LogicBit, Refusal};

/// The widest vector.
pub const MAX_WIDTH: u32 = 1_048_576;

/// A word of the value plane and the word of the unknown plane beside it.
#[repr(C)]
#[derive(Clone, Copy, Debug, PartialEq, Eq, Hash)]
pub struct Word {
    pub value: u64,
    pub unknown: u64,
}

/// How many words a plane of `width` bits has: the larger of 1 and width / 64, rounded up.
#[inline]
pub fn word_count(width: u32) -> usize {
    width.max(1).div_ceil(64) as usize
}

// In each call below a pointer and a length are those of one slice, which is lent for as long as the call runs; a slice that is lent for
// writing overlaps no other.

/// Bit i; 0 at or above the width.
#[inline]
pub fn get(width: u32, value: &[u64], unknown: &[u64], i: usize) -> Result<LogicBit, Refusal> {
    bit(unsafe { raw::vowherunga_get(width, value.as_ptr(), value.len(), unknown.as_ptr(), unknown.len(), i) })
}

/// Makes bit i the given bit; at or above the width nothing changes.
#[inline]
pub fn set(width: u32, value: &mut [u64], unknown: &mut [u64], i: usize, bit: LogicBit) -> Result<(), Refusal> {
    let code = bit.to_code();
    Refusal::of_call(unsafe { raw::vowherunga_set(width, value.as_mut_ptr(), value.len(), unknown.as_mut_ptr(), unknown.len(), i, code) })
}

/// Puts the lowest bits of a word in from `pos` on: the least of n, 64 and the width minus `pos` of them.
#[inline]
pub fn splice64(width: u32, value: &mut [u64], unknown: &mut [u64], pos: usize, bits: Word, n: usize) -> Result<(), Refusal> {
    Refusal::of_call(unsafe {
        raw::vowherunga_splice64(
            width,
            value.as_mut_ptr(),
            value.len(),
            unknown.as_mut_ptr(),
            unknown.len(),
            pos,
            bits.value,
            bits.unknown,
            n,
        )
    })
}

/// The n bits from `pos` on, at most 64; 0 beyond the width.
#[inline]
pub fn extract64(width: u32, value: &[u64], unknown: &[u64], pos: usize, n: usize) -> Result<Word, Refusal> {
    let r = unsafe { raw::vowherunga_extract64(width, value.as_ptr(), value.len(), unknown.as_ptr(), unknown.len(), pos, n) };
    Refusal::of_call(r.refusal)?;
    Ok(Word {
        value: r.value,
        unknown: r.unknown,
    })
}

/// Clears the bits at or above the width; at width 0 none.
#[inline]
pub fn mask_top(width: u32, value: &mut [u64], unknown: &mut [u64]) -> Result<(), Refusal> {
    Refusal::of_call(unsafe { raw::vowherunga_mask_top(width, value.as_mut_ptr(), value.len(), unknown.as_mut_ptr(), unknown.len()) })
}

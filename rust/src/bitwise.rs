//! The operators whose result is a vector. Operands are refused as in [`check_vector`](crate::value::check_vector), the left one first; then
//! by 5 an output plane that is not exactly [`word_count`](crate::planes::word_count) words of the result. A refused call writes nothing.
//! Two operands are read as [`Header`] says; the result has the larger width and is no fill.
use crate::value::header;
use crate::{raw, Header, Refusal, Word};

// In each call below a pointer and a length are those of one slice, which is lent for as long as the call runs; a slice that is lent for
// writing overlaps no other.

#[inline(always)]
fn of_two(
    call: raw::VectorOfTwo,
    (a, av, au): (Header, &[u64], &[u64]),
    (b, bv, bu): (Header, &[u64], &[u64]),
    (ov, ou): (&mut [u64], &mut [u64]),
) -> Result<Header, Refusal> {
    header(unsafe {
        call(
            a,
            av.as_ptr(),
            av.len(),
            au.as_ptr(),
            au.len(),
            b,
            bv.as_ptr(),
            bv.len(),
            bu.as_ptr(),
            bu.len(),
            ov.as_mut_ptr(),
            ov.len(),
            ou.as_mut_ptr(),
            ou.len(),
        )
    })
}

/// A bit is 0 if either is 0, 1 if both are 1, else x. The result is unsigned, even of two signed operands.
#[inline]
pub fn bitwise_and(
    a: Header,
    av: &[u64],
    au: &[u64],
    b: Header,
    bv: &[u64],
    bu: &[u64],
    ov: &mut [u64],
    ou: &mut [u64],
) -> Result<Header, Refusal> {
    of_two(raw::vowherunga_bitwise_and, (a, av, au), (b, bv, bu), (ov, ou))
}

/// A bit is 1 if either is 1, 0 if both are 0, else x. The result is unsigned, as in [`bitwise_and`].
#[inline]
pub fn bitwise_or(
    a: Header,
    av: &[u64],
    au: &[u64],
    b: Header,
    bv: &[u64],
    bu: &[u64],
    ov: &mut [u64],
    ou: &mut [u64],
) -> Result<Header, Refusal> {
    of_two(raw::vowherunga_bitwise_or, (a, av, au), (b, bv, bu), (ov, ou))
}

/// A bit is x if either is unknown, else 1 if they differ, else 0. The result is unsigned, as in [`bitwise_and`].
#[inline]
pub fn bitwise_xor(
    a: Header,
    av: &[u64],
    au: &[u64],
    b: Header,
    bv: &[u64],
    bu: &[u64],
    ov: &mut [u64],
    ou: &mut [u64],
) -> Result<Header, Refusal> {
    of_two(raw::vowherunga_bitwise_xor, (a, av, au), (b, bv, bu), (ov, ou))
}

/// A bit stands if both are known and equal, else it is x. The result is signed if both operands are and neither is a fill.
#[inline]
pub fn merge_unknown(
    a: Header,
    av: &[u64],
    au: &[u64],
    b: Header,
    bv: &[u64],
    bu: &[u64],
    ov: &mut [u64],
    ou: &mut [u64],
) -> Result<Header, Refusal> {
    of_two(raw::vowherunga_merge_unknown, (a, av, au), (b, bv, bu), (ov, ou))
}

/// 0 gives 1, 1 gives 0, x and z give x. Width and sign are kept; the result is no fill, and a fill is its own bits.
#[inline]
pub fn bitwise_not(a: Header, av: &[u64], au: &[u64], ov: &mut [u64], ou: &mut [u64]) -> Result<Header, Refusal> {
    header(unsafe {
        raw::vowherunga_bitwise_not(
            a,
            av.as_ptr(),
            av.len(),
            au.as_ptr(),
            au.len(),
            ov.as_mut_ptr(),
            ov.len(),
            ou.as_mut_ptr(),
            ou.len(),
        )
    })
}

/// Puts the lowest bits of a word in from `pos` on: the least of n, 64 and the width minus `pos` of them. Whether a bit changed.
#[inline]
pub fn splice_bits64(a: Header, value: &mut [u64], unknown: &mut [u64], pos: usize, bits: Word, n: usize) -> Result<bool, Refusal> {
    let r = unsafe {
        raw::vowherunga_splice_bits64(
            a,
            value.as_mut_ptr(),
            value.len(),
            unknown.as_mut_ptr(),
            unknown.len(),
            pos,
            bits.value,
            bits.unknown,
            n,
        )
    };
    Refusal::of_call(r.refusal)?;
    Ok(r.bit == 1)
}

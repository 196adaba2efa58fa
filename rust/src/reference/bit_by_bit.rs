//! Not and truth of a vector as forms that go bit by bit, of the crate `ffi_bit_by_bit`. Each answers and refuses as the function of the same
//! name that the binding has. They are kept for comparisons alone, and stand in no header.
use crate::value::header;
use crate::{raw, Header, Refusal, Truth};

extern "C" {
    fn bit_by_bit_not(
        a: Header,
        av: *const u64,
        av_len: usize,
        au: *const u64,
        au_len: usize,
        ov: *mut u64,
        ov_len: usize,
        ou: *mut u64,
        ou_len: usize,
    ) -> raw::HeaderResult;

    fn bit_by_bit_truth(a: Header, value: *const u64, value_len: usize, unknown: *const u64, unknown_len: usize) -> raw::BitResult;
}

// In each call below a pointer and a length are those of one slice, which is lent for as long as the call runs; a slice that is lent for
// writing overlaps no other.

/// [`bitwise::bitwise_not`](crate::bitwise::bitwise_not)
#[inline]
pub fn bitwise_not(a: Header, av: &[u64], au: &[u64], ov: &mut [u64], ou: &mut [u64]) -> Result<Header, Refusal> {
    header(unsafe {
        bit_by_bit_not(
            a,
            av.as_ptr(),
            av.len(),
            au.as_ptr(),
            au.len(),
            ov.as_mut_ptr(),
            ov.len(),
            ou.as_mut_ptr(),
            ou.len(),
        )
    })
}

/// [`reduce::is_nonzero`](crate::reduce::is_nonzero) of a vector.
#[inline]
pub fn is_nonzero(a: Header, value: &[u64], unknown: &[u64]) -> Result<Truth, Refusal> {
    let r = unsafe { bit_by_bit_truth(a, value.as_ptr(), value.len(), unknown.as_ptr(), unknown.len()) };
    Refusal::of_call(r.refusal)?;
    Ok(Truth::of_code(r.bit))
}

//! The arm that a condition picks, handed back without a copy.
use crate::{raw, LogicBit, Truth};

/// Given one plane of each arm, the chosen one as a part of the caller's own slice: all of `first` where the truth is true, all of `second`
/// where it is false, and the empty beginning of `first` where it is unknown. The planes may have any lengths; no word is read, and nothing is
/// refused. A vector takes two calls, one for each plane. An empty answer is an unknown truth, or a chosen plane without words.
///
/// ```
/// use vowherunga::{arm, Truth};
///
/// let (first, second) = ([1, 2, 3], [4]);
/// assert_eq!(arm::chosen_arm(Truth::True, &first, &second).as_ptr_range(), first.as_ptr_range());
/// assert_eq!(arm::chosen_arm(Truth::False, &first, &second).as_ptr_range(), second.as_ptr_range());
/// assert_eq!(arm::chosen_arm(Truth::Unknown, &first, &second).as_ptr_range(), first[..0].as_ptr_range());
/// ```
#[inline]
pub fn chosen_arm<'a>(t: Truth, first: &'a [u64], second: &'a [u64]) -> &'a [u64] {
    let code = LogicBit::from(t).to_code();
    // A pointer and a length are those of one slice, which is lent for as long as the call runs.
    let r = unsafe { raw::vowherunga_chosen_arm(code, first.as_ptr(), first.len(), second.as_ptr(), second.len()) };
    let arm = if r.is_second { second } else { first };
    &arm[..r.length]
}

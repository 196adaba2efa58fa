//! Reductions, truth and the logical operators. An operand is refused as in [`check_vector`](crate::value::check_vector), the left one first;
//! a real whose planes are not empty is refused by 2. A fill counts as its own bits.
use crate::{raw, Header, LogicBit, Operand, Refusal};

/// Whether an operand is nonzero; unknown where its bits do not decide it.
#[derive(Clone, Copy, Debug, PartialEq, Eq, Hash)]
pub enum Truth {
    False,
    True,
    Unknown,
}

impl Truth {
    /// The truth that the code of a bit stands for.
    #[inline]
    pub(crate) fn of_code(code: u8) -> Truth {
        match code {
            0 => Truth::False,
            1 => Truth::True,
            2 => Truth::Unknown,
            _ => unreachable!("no truth has the code {code}"),
        }
    }
}

impl From<Truth> for LogicBit {
    /// 0, 1, or x where the truth is unknown.
    fn from(truth: Truth) -> LogicBit {
        match truth {
            Truth::False => LogicBit::Zero,
            Truth::True => LogicBit::One,
            Truth::Unknown => LogicBit::X,
        }
    }
}

/// The bit of a call that answers one.
#[inline]
pub(crate) fn bit(r: raw::BitResult) -> Result<LogicBit, Refusal> {
    Refusal::of_call(r.refusal)?;
    Ok(LogicBit::from_code(r.bit))
}

// In each call below a pointer and a length are those of one slice, which is lent for as long as the call runs.

#[inline(always)]
fn reduction(call: raw::BitOfOne, a: Header, value: &[u64], unknown: &[u64]) -> Result<LogicBit, Refusal> {
    bit(unsafe { call(a, value.as_ptr(), value.len(), unknown.as_ptr(), unknown.len()) })
}

/// 0 on any known 0, else x on any unknown bit, else 1.
#[inline]
pub fn reduce_and(a: Header, value: &[u64], unknown: &[u64]) -> Result<LogicBit, Refusal> {
    reduction(raw::vowherunga_reduce_and, a, value, unknown)
}

/// 1 on any known 1, else x on any unknown bit, else 0.
#[inline]
pub fn reduce_or(a: Header, value: &[u64], unknown: &[u64]) -> Result<LogicBit, Refusal> {
    reduction(raw::vowherunga_reduce_or, a, value, unknown)
}

/// x on any unknown bit, else whether the number of ones is odd.
#[inline]
pub fn reduce_xor(a: Header, value: &[u64], unknown: &[u64]) -> Result<LogicBit, Refusal> {
    reduction(raw::vowherunga_reduce_xor, a, value, unknown)
}

/// True on a known 1, else unknown on an unknown bit, else false. A real is true if it is not equal to 0, so NaN is true.
#[inline]
pub fn is_nonzero(a: Operand, value: &[u64], unknown: &[u64]) -> Result<Truth, Refusal> {
    let (is_real, header, real) = a.parts();
    let r = unsafe { raw::vowherunga_is_nonzero(is_real, header, real, value.as_ptr(), value.len(), unknown.as_ptr(), unknown.len()) };
    Refusal::of_call(r.refusal)?;
    Ok(Truth::of_code(r.bit))
}

/// What a call of two operands answers.
#[inline(always)]
pub(crate) fn of_operands<A>(
    call: raw::OfOperands<A>,
    (a, av, au): (Operand, &[u64], &[u64]),
    (b, bv, bu): (Operand, &[u64], &[u64]),
) -> A {
    let (a_is_real, a, a_real) = a.parts();
    let (b_is_real, b, b_real) = b.parts();
    unsafe {
        call(
            a_is_real,
            a,
            a_real,
            av.as_ptr(),
            av.len(),
            au.as_ptr(),
            au.len(),
            b_is_real,
            b,
            b_real,
            bv.as_ptr(),
            bv.len(),
            bu.as_ptr(),
            bu.len(),
        )
    }
}

/// 0 if either is false, 1 if both are true, else x.
#[inline]
pub fn logic_and(a: Operand, av: &[u64], au: &[u64], b: Operand, bv: &[u64], bu: &[u64]) -> Result<LogicBit, Refusal> {
    bit(of_operands(raw::vowherunga_logic_and, (a, av, au), (b, bv, bu)))
}

/// 1 if either is true, 0 if both are false, else x.
#[inline]
pub fn logic_or(a: Operand, av: &[u64], au: &[u64], b: Operand, bv: &[u64], bu: &[u64]) -> Result<LogicBit, Refusal> {
    bit(of_operands(raw::vowherunga_logic_or, (a, av, au), (b, bv, bu)))
}

//! Equality, case equality and wildcard equality, and which rule decided the first and the last. An operand is refused as in
//! [`check_vector`](crate::value::check_vector), the left one first; a real whose planes are not empty is refused by 2. Two vectors are read as
//! [`Header`] says.
use crate::reduce::{bit, of_operands};
use crate::{raw, Header, LogicBit, Operand, Refusal};
use std::fmt;

/// Which rule decided a comparison. A place counts from 0, the lowest bit, in both operands as the comparison reads them: fills stretched, the
/// shorter one extended.
#[derive(Clone, Copy, Debug, PartialEq, Eq, Hash)]
pub enum Rule {
    /// The lowest compared place where both bits are known and differ. The bit is 0.
    KnownMismatch(u32),
    /// No compared place holds two different known bits; this is the lowest one where a bit is unknown. The bit is x.
    Unknown(u32),
    /// Every compared place holds two equal known bits, or none is compared. The bit is 1.
    AllEqual,
    /// An operand is a real. The bit is 0 or 1.
    Numeric,
}

impl fmt::Display for Rule {
    fn fmt(&self, f: &mut fmt::Formatter) -> fmt::Result {
        match self {
            Rule::KnownMismatch(place) => write!(f, "known mismatch at bit {place}"),
            Rule::Unknown(place) => write!(f, "unknown at bit {place}"),
            Rule::AllEqual => write!(f, "all compared bits equal"),
            Rule::Numeric => write!(f, "numeric"),
        }
    }
}

/// The bit of a comparison, and the rule that decided it.
#[derive(Clone, Copy, Debug, PartialEq, Eq, Hash)]
pub struct Decision {
    pub bit: LogicBit,
    pub rule: Rule,
}

/// The decision of a call that answers one.
#[inline]
fn decision(r: raw::DecisionResult) -> Result<Decision, Refusal> {
    Refusal::of_call(r.refusal)?;
    let rule = match r.rule {
        1 => Rule::KnownMismatch(r.place),
        2 => Rule::Unknown(r.place),
        3 => Rule::AllEqual,
        4 => Rule::Numeric,
        n => unreachable!("no rule has the number {n}"),
    };
    let bit = LogicBit::from_code(r.bit);
    Ok(Decision { bit, rule })
}

/// 0 if some place holds two different known bits, else x if an operand has an unknown bit, else 1. Beside a real a vector is the number of its
/// low 64 bits, unknown ones taken as 0, in two's complement if it is signed, rounded to nearest, ties to even; a fill is stretched to 64 bits or
/// its width, if that is larger. The two are then compared as IEEE 754 does.
#[inline]
pub fn is_equal(a: Operand, av: &[u64], au: &[u64], b: Operand, bv: &[u64], bu: &[u64]) -> Result<LogicBit, Refusal> {
    bit(match (a, b) {
        (Operand::Vector(a), Operand::Vector(b)) => of_vectors(raw::vowherunga_equal_vectors, (a, av, au), (b, bv, bu)),
        _ => of_operands(raw::vowherunga_is_equal, (a, av, au), (b, bv, bu)),
    })
}

/// The bit of [`is_equal`] and the rule that decided it; all places are compared.
///
/// ```
/// use vowherunga::{compare, Header, LogicBit, Operand, Refusal, Rule};
///
/// # fn main() -> Result<(), Refusal> {
/// let four = Operand::Vector(Header { width: 4, ..Header::default() });
///
/// // 1xx0 and 1110
/// let decision = compare::decide_equal(four, &[0b1000], &[0b0110], four, &[0b1110], &[0])?;
/// assert_eq!((decision.bit, decision.rule), (LogicBit::X, Rule::Unknown(1)));
///
/// // 1xx0 and 0110: a known mismatch decides, also above an unknown bit.
/// let decision = compare::decide_equal(four, &[0b1000], &[0b0110], four, &[0b0110], &[0])?;
/// assert_eq!((decision.bit, decision.rule), (LogicBit::Zero, Rule::KnownMismatch(3)));
/// assert_eq!(decision.rule.to_string(), "known mismatch at bit 3");
/// # Ok(())
/// # }
/// ```
#[inline]
pub fn decide_equal(a: Operand, av: &[u64], au: &[u64], b: Operand, bv: &[u64], bu: &[u64]) -> Result<Decision, Refusal> {
    decision(match (a, b) {
        (Operand::Vector(a), Operand::Vector(b)) => of_vectors(raw::vowherunga_decide_equal_vectors, (a, av, au), (b, bv, bu)),
        _ => of_operands(raw::vowherunga_decide_equal, (a, av, au), (b, bv, bu)),
    })
}

/// What a call of two vectors answers.
#[inline(always)]
fn of_vectors<A>(call: raw::OfVectors<A>, (a, av, au): (Header, &[u64], &[u64]), (b, bv, bu): (Header, &[u64], &[u64])) -> A {
    // A pointer and a length are those of one slice, which is lent for as long as the call runs.
    unsafe {
        call(
            a,
            av.as_ptr(),
            av.len(),
            au.as_ptr(),
            au.len(),
            b,
            bv.as_ptr(),
            bv.len(),
            bu.as_ptr(),
            bu.len(),
        )
    }
}

/// 1 if the bits are the same, x and z too, else 0.
#[inline]
pub fn case_eq(a: Header, av: &[u64], au: &[u64], b: Header, bv: &[u64], bu: &[u64]) -> Result<LogicBit, Refusal> {
    bit(of_vectors(raw::vowherunga_case_eq, (a, av, au), (b, bv, bu)))
}

/// As [`case_eq`], but for places that hold z on either side.
#[inline]
pub fn casez_eq(a: Header, av: &[u64], au: &[u64], b: Header, bv: &[u64], bu: &[u64]) -> Result<LogicBit, Refusal> {
    bit(of_vectors(raw::vowherunga_casez_eq, (a, av, au), (b, bv, bu)))
}

/// As [`case_eq`], but for places that hold x or z on either side.
#[inline]
pub fn casex_eq(a: Header, av: &[u64], au: &[u64], b: Header, bv: &[u64], bu: &[u64]) -> Result<LogicBit, Refusal> {
    bit(of_vectors(raw::vowherunga_casex_eq, (a, av, au), (b, bv, bu)))
}

/// Places count where the right side is known: 0 if one holds two different known bits, else x if one holds an unknown bit on the left, else 1.
#[inline]
pub fn wildcard_eq(a: Header, av: &[u64], au: &[u64], b: Header, bv: &[u64], bu: &[u64]) -> Result<LogicBit, Refusal> {
    bit(of_vectors(raw::vowherunga_wildcard_eq, (a, av, au), (b, bv, bu)))
}

/// The bit of [`wildcard_eq`] and the rule that decided it; the places are compared where the right side is known.
///
/// ```
/// use vowherunga::{compare, Header, LogicBit, Refusal, Rule};
///
/// # fn main() -> Result<(), Refusal> {
/// let two = Header { width: 2, ..Header::default() };
///
/// // 1x and 11, then 1x and 1z
/// let decision = compare::decide_wildcard(two, &[0b10], &[0b01], two, &[0b11], &[0])?;
/// assert_eq!((decision.bit, decision.rule), (LogicBit::X, Rule::Unknown(0)));
/// let decision = compare::decide_wildcard(two, &[0b10], &[0b01], two, &[0b11], &[0b01])?;
/// assert_eq!((decision.bit, decision.rule), (LogicBit::One, Rule::AllEqual));
/// # Ok(())
/// # }
/// ```
#[inline]
pub fn decide_wildcard(a: Header, av: &[u64], au: &[u64], b: Header, bv: &[u64], bu: &[u64]) -> Result<Decision, Refusal> {
    decision(of_vectors(raw::vowherunga_decide_wildcard, (a, av, au), (b, bv, bu)))
}

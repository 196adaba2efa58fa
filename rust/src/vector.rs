//! Vectors by reference: header and planes together, each plane under its name. A method answers and refuses as the function that it names.
use crate::narrow::{ComparesPlanes, OfPlanes};
use crate::{bitwise, compare, literal, planes, reduce, value};
use crate::{Decision, Header, LogicBit, Operand, ParseError, Refusal, Truth, Word};
use std::fmt::{self, Write};

/// A vector whose planes are lent for reading. It is shown as its bits, highest first.
///
/// ```
/// use vowherunga::{LogicBit, ParseError, PlanesMut, Rule, VectorRef};
///
/// # fn main() -> Result<(), ParseError> {
/// let [mut av, mut au, mut bv, mut bu, mut ov, mut ou] = [[0]; 6];
/// let a = PlanesMut { value: &mut av, unknown: &mut au }.parse("01xz")?;
/// let b = PlanesMut { value: &mut bv, unknown: &mut bu }.parse("1111")?;
///
/// let both = a.bitwise_and(b, PlanesMut { value: &mut ov, unknown: &mut ou })?;
/// assert_eq!(both.to_string(), "01xx");
/// assert_eq!(both.get(2)?, LogicBit::One);
/// assert_eq!(both.reduce_or()?, LogicBit::One);
///
/// // Equality, truth and the logical operators take a real beside a vector.
/// assert_eq!(b.is_equal(15.0)?, LogicBit::One);
/// assert_eq!(b.is_equal(a)?, LogicBit::Zero);
///
/// // Bit 3 is 1 here and 0 there.
/// assert_eq!(b.decide_equal(a)?.rule, Rule::KnownMismatch(3));
/// # Ok(())
/// # }
/// ```
#[derive(Clone, Copy, Debug, PartialEq, Eq)]
pub struct VectorRef<'a> {
    pub header: Header,
    pub value: &'a [u64],
    pub unknown: &'a [u64],
}

/// A vector or a real, as the right operand of equality and of the logical operators.
#[derive(Clone, Copy, Debug, PartialEq)]
pub enum OperandRef<'a> {
    Vector(VectorRef<'a>),
    Real(f64),
}

/// Two planes that are lent for a result. What is not refused writes them whole.
#[derive(Debug, PartialEq, Eq)]
pub struct PlanesMut<'a> {
    pub value: &'a mut [u64],
    pub unknown: &'a mut [u64],
}

/// A vector whose planes are lent to be written in place.
#[derive(Debug, PartialEq, Eq)]
pub struct VectorMut<'a> {
    pub header: Header,
    pub value: &'a mut [u64],
    pub unknown: &'a mut [u64],
}

impl<'a> From<VectorRef<'a>> for OperandRef<'a> {
    fn from(v: VectorRef<'a>) -> OperandRef<'a> {
        OperandRef::Vector(v)
    }
}

impl From<f64> for OperandRef<'_> {
    fn from(f: f64) -> Self {
        OperandRef::Real(f)
    }
}

/// A call of two operands over planes.
type OfOperands<A> = fn(Operand, &[u64], &[u64], Operand, &[u64], &[u64]) -> Result<A, Refusal>;

impl VectorRef<'_> {
    /// [`value::check_vector`]
    #[inline]
    pub fn check(self) -> Result<(), Refusal> {
        value::check_vector(self.header, self.value, self.unknown)
    }

    /// [`planes::get`]; a fill of width 0 is not refused here.
    #[inline]
    pub fn get(self, i: usize) -> Result<LogicBit, Refusal> {
        planes::get(self.header.width, self.value, self.unknown, i)
    }

    /// [`planes::extract64`]; a fill of width 0 is not refused here.
    #[inline]
    pub fn extract64(self, pos: usize, n: usize) -> Result<Word, Refusal> {
        planes::extract64(self.header.width, self.value, self.unknown, pos, n)
    }

    /// [`literal::write`]
    #[inline]
    pub fn write_literal(self, text: &mut [u8]) -> Result<(), Refusal> {
        literal::write(self.header, self.value, self.unknown, text)
    }

    #[inline(always)]
    fn join<'o>(self, b: VectorRef, out: PlanesMut<'o>, call: OfPlanes) -> Result<VectorRef<'o>, Refusal> {
        out.write(|v, u| call(self.header, self.value, self.unknown, b.header, b.value, b.unknown, v, u))
    }

    /// [`bitwise::bitwise_and`]
    #[inline]
    pub fn bitwise_and<'o>(self, b: VectorRef, out: PlanesMut<'o>) -> Result<VectorRef<'o>, Refusal> {
        self.join(b, out, bitwise::bitwise_and)
    }

    /// [`bitwise::bitwise_or`]
    #[inline]
    pub fn bitwise_or<'o>(self, b: VectorRef, out: PlanesMut<'o>) -> Result<VectorRef<'o>, Refusal> {
        self.join(b, out, bitwise::bitwise_or)
    }

    /// [`bitwise::bitwise_xor`]
    #[inline]
    pub fn bitwise_xor<'o>(self, b: VectorRef, out: PlanesMut<'o>) -> Result<VectorRef<'o>, Refusal> {
        self.join(b, out, bitwise::bitwise_xor)
    }

    /// [`bitwise::merge_unknown`]
    #[inline]
    pub fn merge_unknown<'o>(self, b: VectorRef, out: PlanesMut<'o>) -> Result<VectorRef<'o>, Refusal> {
        self.join(b, out, bitwise::merge_unknown)
    }

    /// [`bitwise::bitwise_not`]
    #[inline]
    pub fn bitwise_not<'o>(self, out: PlanesMut<'o>) -> Result<VectorRef<'o>, Refusal> {
        out.write(|v, u| bitwise::bitwise_not(self.header, self.value, self.unknown, v, u))
    }

    /// [`reduce::reduce_and`]
    #[inline]
    pub fn reduce_and(self) -> Result<LogicBit, Refusal> {
        reduce::reduce_and(self.header, self.value, self.unknown)
    }

    /// [`reduce::reduce_or`]
    #[inline]
    pub fn reduce_or(self) -> Result<LogicBit, Refusal> {
        reduce::reduce_or(self.header, self.value, self.unknown)
    }

    /// [`reduce::reduce_xor`]
    #[inline]
    pub fn reduce_xor(self) -> Result<LogicBit, Refusal> {
        reduce::reduce_xor(self.header, self.value, self.unknown)
    }

    /// [`reduce::is_nonzero`]
    #[inline]
    pub fn is_nonzero(self) -> Result<Truth, Refusal> {
        reduce::is_nonzero(Operand::Vector(self.header), self.value, self.unknown)
    }

    #[inline(always)]
    fn beside<A>(self, b: OperandRef, call: OfOperands<A>) -> Result<A, Refusal> {
        let a = Operand::Vector(self.header);
        match b {
            OperandRef::Vector(b) => call(a, self.value, self.unknown, Operand::Vector(b.header), b.value, b.unknown),
            OperandRef::Real(f) => call(a, self.value, self.unknown, Operand::Real(f), &[], &[]),
        }
    }

    /// [`reduce::logic_and`]
    #[inline]
    pub fn logic_and<'b>(self, b: impl Into<OperandRef<'b>>) -> Result<LogicBit, Refusal> {
        self.beside(b.into(), reduce::logic_and)
    }

    /// [`reduce::logic_or`]
    #[inline]
    pub fn logic_or<'b>(self, b: impl Into<OperandRef<'b>>) -> Result<LogicBit, Refusal> {
        self.beside(b.into(), reduce::logic_or)
    }

    /// [`compare::is_equal`]
    #[inline]
    pub fn is_equal<'b>(self, b: impl Into<OperandRef<'b>>) -> Result<LogicBit, Refusal> {
        self.beside(b.into(), compare::is_equal)
    }

    /// [`compare::decide_equal`]
    #[inline]
    pub fn decide_equal<'b>(self, b: impl Into<OperandRef<'b>>) -> Result<Decision, Refusal> {
        self.beside(b.into(), compare::decide_equal)
    }

    #[inline(always)]
    fn compare<A>(self, b: VectorRef, call: ComparesPlanes<A>) -> Result<A, Refusal> {
        call(self.header, self.value, self.unknown, b.header, b.value, b.unknown)
    }

    /// [`compare::case_eq`]
    #[inline]
    pub fn case_eq(self, b: VectorRef) -> Result<LogicBit, Refusal> {
        self.compare(b, compare::case_eq)
    }

    /// [`compare::casez_eq`]
    #[inline]
    pub fn casez_eq(self, b: VectorRef) -> Result<LogicBit, Refusal> {
        self.compare(b, compare::casez_eq)
    }

    /// [`compare::casex_eq`]
    #[inline]
    pub fn casex_eq(self, b: VectorRef) -> Result<LogicBit, Refusal> {
        self.compare(b, compare::casex_eq)
    }

    /// [`compare::wildcard_eq`]
    #[inline]
    pub fn wildcard_eq(self, b: VectorRef) -> Result<LogicBit, Refusal> {
        self.compare(b, compare::wildcard_eq)
    }

    /// [`compare::decide_wildcard`]
    #[inline]
    pub fn decide_wildcard(self, b: VectorRef) -> Result<Decision, Refusal> {
        self.compare(b, compare::decide_wildcard)
    }
}

impl fmt::Display for VectorRef<'_> {
    /// The bits, highest first; of what is no vector, why it is refused.
    fn fmt(&self, f: &mut fmt::Formatter) -> fmt::Result {
        if let Err(refusal) = self.check() {
            return refusal.fmt(f);
        }
        (0..self.header.width as usize).rev().try_for_each(|i| {
            let bit = |plane: &[u64]| (plane[i / 64] >> (i % 64) & 1) as u8;
            f.write_char(LogicBit::from_code(bit(self.value) | bit(self.unknown) << 1).to_char())
        })
    }
}

impl<'a> PlanesMut<'a> {
    /// The vector that a call writes.
    #[inline(always)]
    fn write<E>(self, call: impl FnOnce(&mut [u64], &mut [u64]) -> Result<Header, E>) -> Result<VectorRef<'a>, E> {
        let PlanesMut { value, unknown } = self;
        let header = call(value, unknown)?;
        Ok(VectorRef { header, value, unknown })
    }

    /// [`value::parse`]
    pub fn parse(self, text: &str) -> Result<VectorRef<'a>, ParseError> {
        self.write(|v, u| value::parse(text, v, u))
    }

    /// [`literal::read`]
    #[inline]
    pub fn read_literal(self, text: &[u8]) -> Result<VectorRef<'a>, Refusal> {
        self.write(|v, u| literal::read(text, v, u))
    }
}

impl VectorMut<'_> {
    /// The vector as it stands.
    #[inline]
    pub fn as_vector(&self) -> VectorRef<'_> {
        VectorRef {
            header: self.header,
            value: self.value,
            unknown: self.unknown,
        }
    }

    /// [`planes::set`]; a fill of width 0 is not refused here.
    #[inline]
    pub fn set(&mut self, i: usize, bit: LogicBit) -> Result<(), Refusal> {
        planes::set(self.header.width, self.value, self.unknown, i, bit)
    }

    /// [`bitwise::splice_bits64`]
    #[inline]
    pub fn splice_bits64(&mut self, pos: usize, bits: Word, n: usize) -> Result<bool, Refusal> {
        bitwise::splice_bits64(self.header, self.value, self.unknown, pos, bits, n)
    }
}

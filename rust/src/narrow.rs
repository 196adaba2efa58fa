//! Vectors of at most 64 bits, held by value.
use crate::{bitwise, compare, raw, value, Header, LogicBit, Operand, Refusal, Truth, VectorRef, Word};
use std::fmt;

/// A vector of at most 64 bits: its header and a word of each plane, checked once when it is made. No call on it is refused, and each answers
/// as the function of the same name does on planes of one word.
#[derive(Clone, Copy, Debug, PartialEq, Eq, Hash)]
pub struct Narrow {
    header: Header,
    bits: Word,
}

/// An operator of two vectors over planes.
pub(crate) type OfPlanes = fn(Header, &[u64], &[u64], Header, &[u64], &[u64], &mut [u64], &mut [u64]) -> Result<Header, Refusal>;

/// A comparison of two vectors over planes.
pub(crate) type ComparesPlanes<A = LogicBit> = fn(Header, &[u64], &[u64], Header, &[u64], &[u64]) -> Result<A, Refusal>;

/// The result's bits.
#[cold]
fn by_planes_of_one_word(call: OfPlanes, (a, x): (Header, Word), (b, y): (Header, Word)) -> Word {
    let (mut value, mut unknown) = ([0], [0]);
    let done = call(a, &[x.value], &[x.unknown], b, &[y.value], &[y.unknown], &mut value, &mut unknown);
    done.unwrap_or_else(|r| unreachable!("checked vectors are {r}"));
    Word {
        value: value[0],
        unknown: unknown[0],
    }
}

#[cold]
fn compare_planes_of_one_word(call: ComparesPlanes, (a, x): (Header, Word), (b, y): (Header, Word)) -> LogicBit {
    let answer = call(a, &[x.value], &[x.unknown], b, &[y.value], &[y.unknown]);
    answer.unwrap_or_else(|r| unreachable!("checked vectors are {r}"))
}

// A word form takes and gives numbers alone: a call reaches no memory, whatever they are.

impl Narrow {
    /// Refused as in [`check_vector`](value::check_vector) with planes of one word: above 64 bits by 2.
    #[inline]
    pub fn new(header: Header, value: u64, unknown: u64) -> Result<Narrow, Refusal> {
        value::check_vector(header, &[value], &[unknown])?;
        Ok(Narrow {
            header,
            bits: Word { value, unknown },
        })
    }

    #[inline]
    pub fn header(self) -> Header {
        self.header
    }

    #[inline]
    pub fn bits(self) -> Word {
        self.bits
    }

    /// Whether an operator reads the two as they stand: neither is a fill, and they are not both signed and of two widths. Then its word form,
    /// which sees neither widths nor marks, gives its answer.
    #[inline(always)]
    fn is_plain_beside(self, other: Narrow) -> bool {
        let (a, b) = (self.header, other.header);
        !(a.is_fill | b.is_fill) && !(a.is_signed & b.is_signed && a.width != b.width)
    }

    /// An operator by its word form or else through planes of one word. The result has the larger width and is no fill.
    #[inline(always)]
    fn join(self, other: Narrow, is_signed: bool, by_word: raw::WordOfTwo, by_planes: OfPlanes) -> Narrow {
        let bits = match self.is_plain_beside(other) {
            true => unsafe { by_word(self.bits, other.bits) },
            false => by_planes_of_one_word(by_planes, (self.header, self.bits), (other.header, other.bits)),
        };
        Narrow {
            header: Header {
                width: self.header.width.max(other.header.width),
                is_signed,
                is_fill: false,
            },
            bits,
        }
    }

    /// [`bitwise::bitwise_and`]
    #[inline]
    pub fn bitwise_and(self, other: Narrow) -> Narrow {
        self.join(other, false, raw::vowherunga_and_word, bitwise::bitwise_and)
    }

    /// [`bitwise::bitwise_or`]
    #[inline]
    pub fn bitwise_or(self, other: Narrow) -> Narrow {
        self.join(other, false, raw::vowherunga_or_word, bitwise::bitwise_or)
    }

    /// [`bitwise::bitwise_xor`]
    #[inline]
    pub fn bitwise_xor(self, other: Narrow) -> Narrow {
        self.join(other, false, raw::vowherunga_xor_word, bitwise::bitwise_xor)
    }

    /// [`bitwise::merge_unknown`]
    #[inline]
    pub fn merge_unknown(self, other: Narrow) -> Narrow {
        let (a, b) = (self.header, other.header);
        let is_signed = a.is_signed & b.is_signed & !(a.is_fill | b.is_fill);
        self.join(other, is_signed, raw::vowherunga_merge_word, bitwise::merge_unknown)
    }

    /// [`bitwise::bitwise_not`]
    #[inline]
    pub fn bitwise_not(self) -> Narrow {
        Narrow {
            header: Header {
                is_fill: false,
                ..self.header
            },
            bits: unsafe { raw::vowherunga_not_word(self.header.width, self.bits) },
        }
    }

    /// [`reduce::reduce_and`](crate::reduce::reduce_and)
    #[inline]
    pub fn reduce_and(self) -> LogicBit {
        LogicBit::from_code(unsafe { raw::vowherunga_reduce_and_word(self.header.width, self.bits) })
    }

    /// [`reduce::reduce_or`](crate::reduce::reduce_or)
    #[inline]
    pub fn reduce_or(self) -> LogicBit {
        LogicBit::from_code(unsafe { raw::vowherunga_reduce_or_word(self.bits) })
    }

    /// [`reduce::reduce_xor`](crate::reduce::reduce_xor)
    #[inline]
    pub fn reduce_xor(self) -> LogicBit {
        LogicBit::from_code(unsafe { raw::vowherunga_reduce_xor_word(self.bits) })
    }

    /// [`reduce::is_nonzero`](crate::reduce::is_nonzero)
    #[inline]
    pub fn is_nonzero(self) -> Truth {
        Truth::of_code(unsafe { raw::vowherunga_truth_word(self.bits) })
    }

    /// A comparison by its word form or else through planes of one word.
    #[inline(always)]
    fn compare(self, other: Narrow, by_word: raw::CodeOfTwo, by_planes: ComparesPlanes) -> LogicBit {
        match self.is_plain_beside(other) {
            true => LogicBit::from_code(unsafe { by_word(self.bits, other.bits) }),
            false => compare_planes_of_one_word(by_planes, (self.header, self.bits), (other.header, other.bits)),
        }
    }

    /// [`compare::is_equal`]
    #[inline]
    pub fn is_equal(self, other: Narrow) -> LogicBit {
        self.compare(other, raw::vowherunga_is_equal_word, |a, av, au, b, bv, bu| {
            compare::is_equal(Operand::Vector(a), av, au, Operand::Vector(b), bv, bu)
        })
    }

    /// [`compare::case_eq`]
    #[inline]
    pub fn case_eq(self, other: Narrow) -> LogicBit {
        self.compare(other, raw::vowherunga_case_eq_word, compare::case_eq)
    }

    /// [`compare::casez_eq`]
    #[inline]
    pub fn casez_eq(self, other: Narrow) -> LogicBit {
        self.compare(other, raw::vowherunga_casez_eq_word, compare::casez_eq)
    }

    /// [`compare::casex_eq`]
    #[inline]
    pub fn casex_eq(self, other: Narrow) -> LogicBit {
        self.compare(other, raw::vowherunga_casex_eq_word, compare::casex_eq)
    }

    /// [`compare::wildcard_eq`]
    #[inline]
    pub fn wildcard_eq(self, other: Narrow) -> LogicBit {
        self.compare(other, raw::vowherunga_wildcard_eq_word, compare::wildcard_eq)
    }
}

impl fmt::Display for Narrow {
    /// The bits, highest first.
    fn fmt(&self, f: &mut fmt::Formatter) -> fmt::Result {
        let (value, unknown) = (&[self.bits.value], &[self.bits.unknown]);
        let header = self.header;
        VectorRef { header, value, unknown }.fmt(f)
    }
}

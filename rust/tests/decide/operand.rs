//! Vectors as the evaluator and as the library take them, and the calls on them.
use crate::evaluator::{self, Bits, Comparison};
use vowherunga::{compare, Decision, Header, LogicBit, Operand};

impl Bits {
    /// An unsigned vector that is no fill, of a text that has the highest bit first.
    pub fn new(text: &str) -> Bits {
        Bits {
            places: text.bytes().rev().collect(),
            is_signed: false,
            is_fill: false,
        }
    }

    pub fn signed(self) -> Bits {
        Bits { is_signed: true, ..self }
    }

    pub fn fill(self) -> Bits {
        Bits { is_fill: true, ..self }
    }

    /// The vector with other bits in some places.
    pub fn with(&self, bit: u8, places: impl IntoIterator<Item = usize>) -> Bits {
        let mut v = self.clone();
        places.into_iter().for_each(|i| v.places[i] = bit);
        v
    }

    /// The vector with another known bit in a place, which holds a known one.
    pub fn flipped(&self, i: usize) -> Bits {
        self.with(b'0' + b'1' - self.places[i], [i])
    }

    pub fn planes(&self) -> Planes {
        let words = self.places.len().div_ceil(64).max(1);
        let (mut value, mut unknown) = (vec![0; words], vec![0; words]);
        for (i, bit) in self.places.iter().enumerate() {
            value[i / 64] |= u64::from(b"1z".contains(bit)) << (i % 64);
            unknown[i / 64] |= u64::from(b"xz".contains(bit)) << (i % 64);
        }
        let header = Header {
            width: self.places.len() as u32,
            is_signed: self.is_signed,
            is_fill: self.is_fill,
        };
        Planes { header, value, unknown }
    }
}

/// A vector that owns its planes.
pub struct Planes {
    pub header: Header,
    pub value: Vec<u64>,
    pub unknown: Vec<u64>,
}

/// What the library decides.
pub fn decided(comparison: Comparison, a: &Planes, b: &Planes) -> Decision {
    let [x, y] = [a, b].map(|v| Operand::Vector(v.header));
    let answer = match comparison {
        Comparison::Equality => compare::decide_equal(x, &a.value, &a.unknown, y, &b.value, &b.unknown),
        Comparison::Wildcard => compare::decide_wildcard(a.header, &a.value, &a.unknown, b.header, &b.value, &b.unknown),
    };
    answer.unwrap()
}

/// The bit that the library gives without a rule.
pub fn bit(comparison: Comparison, a: &Planes, b: &Planes) -> LogicBit {
    let [x, y] = [a, b].map(|v| Operand::Vector(v.header));
    let answer = match comparison {
        Comparison::Equality => compare::is_equal(x, &a.value, &a.unknown, y, &b.value, &b.unknown),
        Comparison::Wildcard => compare::wildcard_eq(a.header, &a.value, &a.unknown, b.header, &b.value, &b.unknown),
    };
    answer.unwrap()
}

/// Sees that the library decides as the evaluator does, and that the bit is the one without a rule. Gives the decision.
pub fn decides(comparison: Comparison, a: &Bits, b: &Bits) -> Decision {
    let [x, y] = [a, b].map(Bits::planes);
    let got = decided(comparison, &x, &y);
    let what = || format!("{comparison:?} of {} and {}", shown(a), shown(b));
    let (want, rule) = evaluator::decision(comparison, a, b);
    assert_eq!((got.bit.to_char(), got.rule), (want, rule), "{}", what());
    assert_eq!(got.bit, bit(comparison, &x, &y), "{}", what());
    got
}

/// The bits, highest first, while they are few, and the marks.
fn shown(v: &Bits) -> String {
    let bits: String = match v.places.len() {
        n @ 300.. => format!("{n} bits"),
        _ => v.places.iter().rev().map(|bit| char::from(*bit)).collect(),
    };
    let signed = if v.is_signed { "signed " } else { "" };
    let fill = if v.is_fill { "fill " } else { "" };
    format!("{signed}{fill}{bits:?}")
}

//! The check of a vector, and the operators of one and of two operands. A table says of each operand alone what refuses it; then the left one
//! is named before the right one, and an output plane last.
use crate::lent::Lent;
use crate::number;
use crate::planes::wrong_lengths;
use crate::table::{fills_and_reals, vectors, Input};
use vowherunga::planes::word_count;
use vowherunga::{bitwise, compare, reduce, value, Header, LogicBit, Operand, Refusal, Truth, MAX_WIDTH};

/// An operand as it is lent.
struct Given<'a> {
    operand: Operand,
    value: &'a [u64],
    unknown: &'a [u64],
}

impl Given<'_> {
    fn header(&self) -> Header {
        match self.operand {
            Operand::Vector(header) => header,
            Operand::Real(_) => panic!("a real has no header"),
        }
    }
}

type Plane<'a> = &'a [u64];
type Output<'a> = &'a mut [u64];

/// An entry by what it takes and gives.
pub enum Entry {
    Check(fn(Header, Plane, Plane) -> Result<(), Refusal>),
    Reduction(fn(Header, Plane, Plane) -> Result<LogicBit, Refusal>),
    Truth(fn(Operand, Plane, Plane) -> Result<Truth, Refusal>),
    OfOperands(fn(Operand, Plane, Plane, Operand, Plane, Plane) -> Result<LogicBit, Refusal>),
    Comparison(fn(Header, Plane, Plane, Header, Plane, Plane) -> Result<LogicBit, Refusal>),
    Not(fn(Header, Plane, Plane, Output, Output) -> Result<Header, Refusal>),
    Bitwise(fn(Header, Plane, Plane, Header, Plane, Plane, Output, Output) -> Result<Header, Refusal>),
}

const ENTRIES: [(&str, Entry); 19] = [
    ("check_vector", Entry::Check(value::check_vector)),
    ("reduce_and", Entry::Reduction(reduce::reduce_and)),
    ("reduce_or", Entry::Reduction(reduce::reduce_or)),
    ("reduce_xor", Entry::Reduction(reduce::reduce_xor)),
    ("is_nonzero", Entry::Truth(reduce::is_nonzero)),
    ("logic_and", Entry::OfOperands(reduce::logic_and)),
    ("logic_or", Entry::OfOperands(reduce::logic_or)),
    ("is_equal", Entry::OfOperands(compare::is_equal)),
    ("case_eq", Entry::Comparison(compare::case_eq)),
    ("casez_eq", Entry::Comparison(compare::casez_eq)),
    ("casex_eq", Entry::Comparison(compare::casex_eq)),
    ("wildcard_eq", Entry::Comparison(compare::wildcard_eq)),
    (
        "decide_equal",
        Entry::OfOperands(|a, av, au, b, bv, bu| Ok(compare::decide_equal(a, av, au, b, bv, bu)?.bit)),
    ),
    (
        "decide_wildcard",
        Entry::Comparison(|a, av, au, b, bv, bu| Ok(compare::decide_wildcard(a, av, au, b, bv, bu)?.bit)),
    ),
    ("bitwise_not", Entry::Not(bitwise::bitwise_not)),
    ("bitwise_and", Entry::Bitwise(bitwise::bitwise_and)),
    ("bitwise_or", Entry::Bitwise(bitwise::bitwise_or)),
    ("bitwise_xor", Entry::Bitwise(bitwise::bitwise_xor)),
    ("merge_unknown", Entry::Bitwise(bitwise::merge_unknown)),
];

impl Entry {
    fn has_two_operands(&self) -> bool {
        matches!(self, Entry::OfOperands(_) | Entry::Comparison(_) | Entry::Bitwise(_))
    }

    fn takes_reals(&self) -> bool {
        matches!(self, Entry::Truth(_) | Entry::OfOperands(_))
    }

    pub fn writes(&self) -> bool {
        matches!(self, Entry::Not(_) | Entry::Bitwise(_))
    }

    fn call(&self, given: &[Given], ov: Output, ou: Output) -> u8 {
        let (a, b) = (&given[0], &given[given.len() - 1]);
        match self {
            Entry::Check(f) => number(f(a.header(), a.value, a.unknown)),
            Entry::Reduction(f) => number(f(a.header(), a.value, a.unknown)),
            Entry::Truth(f) => number(f(a.operand, a.value, a.unknown)),
            Entry::OfOperands(f) => number(f(a.operand, a.value, a.unknown, b.operand, b.value, b.unknown)),
            Entry::Comparison(f) => number(f(a.header(), a.value, a.unknown, b.header(), b.value, b.unknown)),
            Entry::Not(f) => number(f(a.header(), a.value, a.unknown, ov, ou)),
            Entry::Bitwise(f) => number(f(a.header(), a.value, a.unknown, b.header(), b.value, b.unknown, ov, ou)),
        }
    }
}

/// Lends operands and output planes of some lengths to an entry, and sees which number it answers, that no operand changes and that, where it
/// is refused, no output does.
pub fn answers(name: &str, entry: &Entry, inputs: &[&Input], lengths: [usize; 2], want: u8) {
    let mut lent: Vec<[Lent; 2]> = inputs.iter().map(|i| [Lent::new(&i.value), Lent::new(&i.unknown)]).collect();
    let given: Vec<Given> = inputs
        .iter()
        .zip(&mut lent)
        .map(|(i, [value, unknown])| Given {
            operand: i.operand,
            value: value.plane(),
            unknown: unknown.plane(),
        })
        .collect();
    let stood = lengths.map(|words| vec![0xfedc_ba98_7654_3210; words]);
    let [mut ov, mut ou] = [Lent::new(&stood[0]), Lent::new(&stood[1])];

    let got = entry.call(&given, ov.plane(), ou.plane());
    let what = || {
        format!(
            "{name} of {:?}, output planes of {lengths:?} words",
            inputs.iter().map(|i| i.operand).collect::<Vec<_>>()
        )
    };
    assert_eq!(got, want, "{}", what());
    for (input, [value, unknown]) in inputs.iter().zip(lent) {
        assert!(
            value.left() == input.value && unknown.left() == input.unknown,
            "an operand changed: {}",
            what()
        );
    }
    let outputs = [ov.left(), ou.left()];
    assert!(want == 0 || outputs == stood, "a refused call wrote: {}", what());
}

/// Runs an entry over operands, with output planes that fit and with some that do not. Gives the number of calls.
pub fn refuses(name: &str, entry: &Entry, inputs: &[&Input]) -> usize {
    let operands = inputs.iter().map(|i| i.operators).find(|n| *n != 0).unwrap_or(0);
    let width = inputs.iter().filter_map(|i| i.header()).map(|h| h.width).max().unwrap_or(0);
    let words = word_count(width.min(MAX_WIDTH));
    answers(name, entry, inputs, [words, words], operands);
    if !entry.writes() {
        return 1;
    }
    let wrong = wrong_lengths(words);
    for lengths in wrong {
        answers(name, entry, inputs, lengths, if operands == 0 { 5 } else { operands });
    }
    1 + wrong.len()
}

#[test]
fn of_operators() {
    let mut calls = 0;
    for (name, entry) in ENTRIES {
        let mut all: Vec<Input> = vectors().into_iter().chain(fills_and_reals()).collect();
        all.retain(|i| entry.takes_reals() || i.header().is_some());
        for left in &all {
            calls += match entry.has_two_operands() {
                false => refuses(name, &entry, &[left]),
                true => all.iter().map(|right| refuses(name, &entry, &[left, right])).sum(),
            };
        }
    }
    assert!(calls > 37_000, "{calls} calls");
}

//! Comparisons by name, each with its bit and its rule, and the rules in words. The evaluator is held to them too.
use crate::evaluator::{Bits, Comparison};
use crate::operand::decides;
use vowherunga::Rule::{AllEqual, KnownMismatch, Numeric, Unknown};
use vowherunga::{compare, Decision, LogicBit, Operand, Rule};
use Comparison::{Equality, Wildcard};

/// A vector of its marks, if it has any, and its bits.
fn read(text: &str) -> Bits {
    match text.split_once(' ') {
        Some(("signed", bits)) => Bits::new(bits).signed(),
        Some(("fill", bits)) => Bits::new(bits).fill(),
        Some((marks, _)) => panic!("no mark: {marks}"),
        None => Bits::new(text),
    }
}

const DECISIONS: [(Comparison, &str, &str, char, Rule); 16] = [
    (Equality, "1x", "0x", '0', KnownMismatch(1)),
    (Equality, "1xx0", "0110", '0', KnownMismatch(3)),
    (Equality, "1xx0", "1110", 'x', Unknown(1)),
    (Equality, "z110", "1x10", 'x', Unknown(2)),
    (Equality, "signed x0", "signed 0100", 'x', Unknown(1)),
    (Equality, "fill x0", "00", '1', AllEqual),
    (Equality, "", "100", '0', KnownMismatch(2)),
    (Equality, "", "", '1', AllEqual),
    (Wildcard, "1x", "11", 'x', Unknown(0)),
    (Wildcard, "0x", "11", '0', KnownMismatch(1)),
    (Wildcard, "1x0", "zz1", '0', KnownMismatch(0)),
    (Wildcard, "xz10", "1x1x", 'x', Unknown(3)),
    (Wildcard, "xx", "zx", '1', AllEqual),
    (Wildcard, "fill x", "1111", 'x', Unknown(0)),
    (Wildcard, "signed x", "signed 1x", 'x', Unknown(1)),
    (Wildcard, "", "", '1', AllEqual),
];

#[test]
fn of_vectors() {
    for (comparison, a, b, bit, rule) in DECISIONS {
        let got = decides(comparison, &read(a), &read(b));
        assert_eq!((got.bit.to_char(), got.rule), (bit, rule), "{comparison:?} of {a:?} and {b:?}");
    }
}

#[test]
fn of_two_nans() {
    let nan = Operand::Real(f64::NAN);
    let (bit, rule) = (LogicBit::Zero, Numeric);
    assert_eq!(compare::decide_equal(nan, &[], &[], nan, &[], &[]), Ok(Decision { bit, rule }));
}

#[test]
fn in_words() {
    let words = [
        (KnownMismatch(5), "known mismatch at bit 5"),
        (Unknown(1_048_575), "unknown at bit 1048575"),
        (AllEqual, "all compared bits equal"),
        (Numeric, "numeric"),
    ];
    for (rule, text) in words {
        assert_eq!(rule.to_string(), text);
    }
}

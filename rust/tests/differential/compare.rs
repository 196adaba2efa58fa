//! Equality, case equality and wildcard equality, also with the rule told, against the reference's `Value` and, where the standard decides,
//! against that.
use crate::alike::Tally;
use crate::reduce::of_operands;
use crate::samples::each_pair;
use vowherunga::reference::standard::{expected, is_touched, Shares};
use vowherunga::reference::value::Value;
use vowherunga::steps::Op;
use vowherunga::LogicBit::{One, Zero, X};
use vowherunga::{compare, Header, LogicBit, Refusal};

type OfTwo = fn(Header, &[u64], &[u64], Header, &[u64], &[u64]) -> Result<LogicBit, Refusal>;

#[test]
fn is_equal() {
    of_operands(40, compare::is_equal, Value::is_equal, &[Zero, One]);
}

/// A comparison answers as expected, over each pair of vectors.
fn of_vectors(seed: u64, ours: OfTwo, op: Op, answers: &[LogicBit]) -> Shares {
    let mut tally = Tally::default();
    let mut shares = Shares::default();
    each_pair(seed, |a, b| {
        let answer = ours(a.header(), &a.value, &a.unknown, b.header(), &b.value, &b.unknown);
        tally.compare(answer, expected(op, &a.vector(), &b.vector()), || format!("{a:?}, {b:?}"));
        shares.count(is_touched(op, a.header(), b.header()));
    });
    tally.expect(250_000, answers);
    shares
}

#[test]
fn case_eq() {
    of_vectors(41, compare::case_eq, Op::CaseEqual, &[Zero, One]);
}

#[test]
fn casez_eq() {
    of_vectors(42, compare::casez_eq, Op::CasezEqual, &[Zero, One]);
}

#[test]
fn casex_eq() {
    of_vectors(43, compare::casex_eq, Op::CasexEqual, &[Zero, One]);
}

#[test]
fn wildcard_eq() {
    of_vectors(44, compare::wildcard_eq, Op::WildcardEqual, &[Zero, One, X]).expect(Op::WildcardEqual.name());
}

/// The bit beside a rule is the comparison's.
#[test]
fn decide_equal() {
    of_operands(
        45,
        |a, av, au, b, bv, bu| Ok(compare::decide_equal(a, av, au, b, bv, bu)?.bit),
        Value::is_equal,
        &[Zero, One],
    );
}

#[test]
fn decide_wildcard() {
    let ours: OfTwo = |a, av, au, b, bv, bu| Ok(compare::decide_wildcard(a, av, au, b, bv, bu)?.bit);
    of_vectors(46, ours, Op::WildcardEqual, &[Zero, One, X]).expect("decide_wildcard");
}

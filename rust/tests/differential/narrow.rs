//! Vectors of at most 64 bits held by value, against the reference's `Value` and, where it is the standard that decides, against that.
use crate::alike::Tally;
use crate::samples::{each_pair, each_vector, Sample};
use vowherunga::reference::standard::{expected, is_touched, Shares};
use vowherunga::reference::value::Value;
use vowherunga::reference::{truth_bit, Vector};
use vowherunga::steps::Op;
use vowherunga::LogicBit::{One, Zero, X};
use vowherunga::{LogicBit, Narrow, Word};

/// A sample that is narrow.
pub fn narrow(s: &Sample) -> Option<Narrow> {
    match s.header().width {
        0..=64 => Some(Narrow::new(s.header(), s.value[0], s.unknown[0]).unwrap()),
        _ => None,
    }
}

/// Header and bits are those of the expected vector.
pub fn same(ours: Narrow, theirs: impl Into<Vector>, of: impl Fn() -> String) {
    let want = theirs.into();
    let bits = Word {
        value: want.value[0],
        unknown: want.unknown[0],
    };
    assert_eq!((ours.header(), ours.bits()), (want.header, bits), "{}", of());
}

/// An operator of two gives what is expected, over each pair that is narrow.
fn of_two(seed: u64, ours: fn(Narrow, Narrow) -> Narrow, op: Op) {
    let mut calls = 0;
    let mut shares = Shares::default();
    each_pair(seed, |a, b| {
        if let (Some(x), Some(y)) = (narrow(a), narrow(b)) {
            same(ours(x, y), expected(op, &a.vector(), &b.vector()), || format!("{a:?}, {b:?}"));
            calls += 1;
            shares.count(is_touched(op, a.header(), b.header()));
        }
    });
    assert!(calls > 145_000, "{calls} calls");
    shares.expect(op.name());
}

#[test]
fn bitwise() {
    of_two(30, Narrow::bitwise_and, Op::And);
    of_two(31, Narrow::bitwise_or, Op::Or);
    of_two(32, Narrow::bitwise_xor, Op::Xor);
    of_two(33, Narrow::merge_unknown, Op::Merge);
}

#[test]
fn bitwise_not() {
    let mut calls = 0;
    each_vector(34, |a| {
        if let Some(x) = narrow(a) {
            same(x.bitwise_not(), a.reference.bitwise_not(), || format!("{a:?}"));
            calls += 1;
        }
    });
    assert!(calls > 30_000, "{calls} calls");
}

/// An answer is the reference's, over each vector that is narrow.
fn answer(seed: u64, ours: fn(Narrow) -> LogicBit, theirs: fn(&Value) -> Value) {
    let mut tally = Tally::default();
    each_vector(seed, |a| {
        if let Some(x) = narrow(a) {
            tally.compare(Ok(ours(x)), theirs(&a.reference), || format!("{a:?}"));
        }
    });
    tally.expect(30_000, &[Zero, One, X]);
}

#[test]
fn answers() {
    answer(35, Narrow::reduce_and, Value::reduce_and);
    answer(36, Narrow::reduce_or, Value::reduce_or);
    answer(37, Narrow::reduce_xor, Value::reduce_xor);
    answer(38, |x| x.is_nonzero().into(), |v| truth_bit(v.is_nonzero()));
}

/// A comparison answers as expected, over each pair that is narrow.
fn comparison(seed: u64, ours: fn(Narrow, Narrow) -> LogicBit, op: Op, answers: &[LogicBit]) -> Shares {
    let mut tally = Tally::default();
    let mut shares = Shares::default();
    each_pair(seed, |a, b| {
        if let (Some(x), Some(y)) = (narrow(a), narrow(b)) {
            tally.compare(Ok(ours(x, y)), expected(op, &a.vector(), &b.vector()), || format!("{a:?}, {b:?}"));
            shares.count(is_touched(op, a.header(), b.header()));
        }
    });
    tally.expect(145_000, answers);
    shares
}

#[test]
fn comparisons() {
    comparison(45, Narrow::is_equal, Op::Equal, &[Zero, One, X]);
    comparison(46, Narrow::case_eq, Op::CaseEqual, &[Zero, One]);
    comparison(47, Narrow::casez_eq, Op::CasezEqual, &[Zero, One]);
    comparison(48, Narrow::casex_eq, Op::CasexEqual, &[Zero, One]);
    comparison(49, Narrow::wildcard_eq, Op::WildcardEqual, &[Zero, One, X]).expect(Op::WildcardEqual.name());
}

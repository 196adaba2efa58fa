//! Reductions, truth and the logical operators, against the reference's `Value`.
use crate::alike::Tally;
use crate::samples::{each_pair, each_pair_with_a_real, each_vector, some_reals, Sample};
use vowherunga::reference::draw::Rng;
use vowherunga::reference::truth_bit;
use vowherunga::reference::value::Value;
use vowherunga::LogicBit::{One, Zero, X};
use vowherunga::{reduce, value, Header, LogicBit, Operand, Refusal};

type OfOne = fn(Header, &[u64], &[u64]) -> Result<LogicBit, Refusal>;
type OfTwo = fn(Operand, &[u64], &[u64], Operand, &[u64], &[u64]) -> Result<LogicBit, Refusal>;

/// A reduction answers as the reference does, over each vector.
fn reduction(seed: u64, ours: OfOne, theirs: fn(&Value) -> Value) {
    let mut tally = Tally::default();
    each_vector(seed, |a| {
        let answer = ours(a.header(), &a.value, &a.unknown);
        tally.compare(answer, theirs(&a.reference), || format!("{a:?}"));
    });
    tally.expect(45_000, &[Zero, One, X]);
}

#[test]
fn reduce_and() {
    reduction(20, reduce::reduce_and, Value::reduce_and);
}

#[test]
fn reduce_or() {
    reduction(21, reduce::reduce_or, Value::reduce_or);
}

#[test]
fn reduce_xor() {
    reduction(22, reduce::reduce_xor, Value::reduce_xor);
}

#[test]
fn is_nonzero() {
    let mut tally = Tally::default();
    let mut compare = |a: &Sample| {
        let answer = reduce::is_nonzero(a.operand, &a.value, &a.unknown).map(LogicBit::from);
        tally.compare(answer, truth_bit(a.reference.is_nonzero()), || format!("{a:?}"));
    };
    each_vector(23, &mut compare);
    let mut rng = Rng::new(23);
    let reals = some_reals(&mut rng).into_iter().chain((0..20_000).map(|_| rng.real()));
    reals.for_each(|f| compare(&f.into()));
    tally.expect(65_000, &[Zero, One, X]);
}

/// An operator of two operands answers as the reference does, over each pair of vectors and each with a real; the latter have the given answers.
pub fn of_operands(seed: u64, ours: OfTwo, theirs: fn(&Value, &Value) -> Value, with_a_real: &[LogicBit]) {
    let compare = |tally: &mut Tally, a: &Sample, b: &Sample| {
        let answer = ours(a.operand, &a.value, &a.unknown, b.operand, &b.value, &b.unknown);
        tally.compare(answer, theirs(&a.reference, &b.reference), || format!("{a:?}, {b:?}"));
    };
    let mut tally = Tally::default();
    each_pair(seed, |a, b| compare(&mut tally, a, b));
    tally.expect(250_000, &[Zero, One, X]);
    let mut tally = Tally::default();
    each_pair_with_a_real(seed, |a, b| compare(&mut tally, a, b));
    tally.expect(230_000, with_a_real);
}

#[test]
fn logic_and() {
    of_operands(24, reduce::logic_and, Value::logic_and, &[Zero, One, X]);
}

#[test]
fn logic_or() {
    of_operands(25, reduce::logic_or, Value::logic_or, &[Zero, One, X]);
}

/// What the other tests lend is a vector; what is not one stands among the refusals.
#[test]
fn check_vector() {
    let calls = each_vector(26, |a| {
        assert_eq!(value::check_vector(a.header(), &a.value, &a.unknown), Ok(()), "{a:?}");
    });
    assert!(calls > 45_000, "{calls} calls");
}

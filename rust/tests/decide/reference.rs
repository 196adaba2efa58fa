//! The bit beside the rule against the reference or, where document 02 departs from it, the standard.
use crate::drawn::PAIRS;
use crate::evaluator::{Bits, Comparison};
use crate::generator::Draw;
use crate::operand::{decided, Planes};
use vowherunga::reference::standard::{expected, is_touched, Shares};
use vowherunga::reference::Vector;
use vowherunga::steps::Op;

fn vector(v: &Planes) -> Vector {
    Vector {
        header: v.header,
        value: v.value.clone(),
        unknown: v.unknown.clone(),
    }
}

fn as_expected(comparison: Comparison, op: Op, seed: u64) -> Shares {
    let mut draw = Draw::new(seed);
    let mut shares = Shares::default();
    for _ in 0..PAIRS {
        let (a, b) = draw.pair();
        let [x, y] = [&a, &b].map(Bits::planes);
        let want = expected(op, &vector(&x), &vector(&y));
        assert_eq!(want.header.width, 1);
        assert_eq!(decided(comparison, &x, &y).bit.to_code(), want.code(0), "{op} of {a:?}, {b:?}");
        shares.count(is_touched(op, x.header, y.header));
    }
    shares
}

#[test]
fn equality() {
    let shares = as_expected(Comparison::Equality, Op::Equal, 1);
    assert_eq!((shares.touched, shares.untouched), (0, PAIRS));
}

#[test]
fn wildcard() {
    as_expected(Comparison::Wildcard, Op::WildcardEqual, 2).expect(Op::WildcardEqual.name());
}

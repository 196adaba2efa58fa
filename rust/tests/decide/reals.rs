//! A real on one side or on both: the rule is numeric, and the bit that of the equality.
use crate::evaluator::Bits;
use crate::operand::Planes;
use crate::small::vectors;
use vowherunga::LogicBit::{One, Zero};
use vowherunga::{compare, Decision, LogicBit, Operand, Rule};

const NAN: f64 = f64::NAN;
const INFINITY: f64 = f64::INFINITY;

/// An operand and its planes; those of a real are empty.
#[derive(Clone, Copy)]
enum Side<'a> {
    Real(f64),
    Vector(&'a Planes),
}

impl<'a> Side<'a> {
    fn parts(self) -> (Operand, &'a [u64], &'a [u64]) {
        match self {
            Side::Real(f) => (Operand::Real(f), &[], &[]),
            Side::Vector(v) => (Operand::Vector(v.header), &v.value, &v.unknown),
        }
    }
}

/// The bit, once the rule is seen to be numeric and the bit that of `is_equal`.
fn numeric(a: Side, b: Side) -> LogicBit {
    let ((a, av, au), (b, bv, bu)) = (a.parts(), b.parts());
    let bit = compare::is_equal(a, av, au, b, bv, bu).unwrap();
    let rule = Rule::Numeric;
    assert_eq!(
        compare::decide_equal(a, av, au, b, bv, bu),
        Ok(Decision { bit, rule }),
        "{a:?} {av:?} {au:?}, {b:?} {bv:?} {bu:?}"
    );
    bit
}

#[test]
fn two_reals() {
    let equal = [(1.5, 1.5), (0.0, -0.0), (INFINITY, INFINITY)];
    let unequal = [(1.0, 2.0), (1.0, -1.0), (INFINITY, -INFINITY), (NAN, NAN), (NAN, 1.0), (1.0, NAN)];
    for (f, g) in equal {
        assert_eq!(numeric(Side::Real(f), Side::Real(g)), One);
    }
    for (f, g) in unequal {
        assert_eq!(numeric(Side::Real(f), Side::Real(g)), Zero);
    }
}

fn either_way(v: &Bits, f: f64) -> LogicBit {
    let planes = v.planes();
    let (v, f) = (Side::Vector(&planes), Side::Real(f));
    let bit = numeric(v, f);
    assert_eq!(numeric(f, v), bit);
    bit
}

#[test]
fn a_real_and_a_vector() {
    let ones = Bits::new("1111");
    let wide = Bits::new(&format!("x{}101", "0".repeat(61)));
    let equal = [
        (ones.clone(), 15.0),
        (ones.clone().signed(), -1.0),
        (ones.clone().fill(), 18446744073709551616.0),
        (Bits::new("11x1"), 13.0),
        (Bits::new("zzzz"), 0.0),
        (Bits::new(""), -0.0),
        (wide.clone(), 5.0),
    ];
    for (v, f) in equal {
        assert_eq!(either_way(&v, f), One, "{v:?}, {f}");
    }
    let unequal = [
        (ones.clone(), -1.0),
        (ones.clone(), 15.5),
        (ones.signed(), 15.0),
        (Bits::new("0000"), NAN),
        (Bits::new("xxxx"), NAN),
        (Bits::new(""), 1.0),
        (wide, INFINITY),
    ];
    for (v, f) in unequal {
        assert_eq!(either_way(&v, f), Zero, "{v:?}, {f}");
    }
}

#[test]
fn reals_and_small_vectors() {
    let mut equal = 0;
    for v in vectors() {
        for f in [0.0, 1.0, -1.0, 3.0, 6.0, 2.5, INFINITY, NAN] {
            equal += usize::from(either_way(&v, f) == One);
        }
    }
    assert!(equal > 200, "{equal} are equal");
}

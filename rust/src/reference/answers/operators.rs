//! Answers of the operators, whose operands are only read.
use super::text::{bit, lent, vector};
use super::{stood, widths};
use crate::reference::draw::Rng;
use crate::reference::reals::Quotient;
use crate::reference::standard::{expected, is_touched};
use crate::reference::value::Value;
use crate::reference::{truth_bit, Vector};
use crate::steps::Op;

type OfOne = fn(&Value) -> Value;
type OfTwo = fn(&Value, &Value) -> Value;

/// Two vectors give a vector.
const BITWISE: [(&str, Op); 4] = [
    ("bitwise_and", Op::And),
    ("bitwise_or", Op::Or),
    ("bitwise_xor", Op::Xor),
    ("merge_unknown", Op::Merge),
];

/// A vector gives a bit.
const REDUCTIONS: [(&str, OfOne); 3] = [
    ("reduce_and", Value::reduce_and),
    ("reduce_or", Value::reduce_or),
    ("reduce_xor", Value::reduce_xor),
];

/// Two operands, each a vector or a real, give a bit.
const OF_OPERANDS: [(&str, OfTwo); 3] = [
    ("logic_and", Value::logic_and),
    ("logic_or", Value::logic_or),
    ("is_equal", Value::is_equal),
];

/// Two vectors give a bit.
const OF_VECTORS: [(&str, Op); 4] = [
    ("case_eq", Op::CaseEqual),
    ("casez_eq", Op::CasezEqual),
    ("casex_eq", Op::CasexEqual),
    ("wildcard_eq", Op::WildcardEqual),
];

/// An operand as text, and the reference's value of it.
struct Operand {
    text: String,
    value: Value,
}

impl From<Vector> for Operand {
    fn from(v: Vector) -> Operand {
        Operand {
            text: vector(&v),
            value: v.to_value(),
        }
    }
}

impl From<Quotient> for Operand {
    fn from(q: Quotient) -> Operand {
        Operand {
            text: q.to_string(),
            value: Value::from_f64(q.real()),
        }
    }
}

/// A vector of the width whose bits are all 0, but for two at most.
fn faint(rng: &mut Rng, width: u32) -> Vector {
    let empty = rng.vector(0);
    rng.like(&empty, width)
}

/// Two vectors of which one has the width, and the other that one, or few bits, or about a word. Two in three are much alike.
fn pair(rng: &mut Rng, width: u32) -> (Vector, Vector) {
    let other = match rng.below(8) {
        0 | 1 => width,
        2 => rng.choose(&[63, 64, 65, 66]),
        _ => rng.below(6) as u32,
    };
    let a = rng.operand(width);
    let b = if rng.below(2) == 0 {
        rng.operand(other)
    } else {
        rng.like(&a, other)
    };
    match rng.below(2) {
        0 => (a, b),
        _ => (b, a),
    }
}

/// A pair of which both are signed and no fills.
fn signed_pair(rng: &mut Rng, width: u32) -> (Vector, Vector) {
    let (mut a, mut b) = pair(rng, width);
    a.make_signed();
    b.make_signed();
    (a, b)
}

/// A real and a vector of the width that lies near it, a vector and a real, two reals, or two vectors.
fn operands(rng: &mut Rng, width: u32) -> (Operand, Operand) {
    let (q, other) = (rng.quotient(), rng.quotient());
    let near = rng.near(q.real(), width);
    match rng.below(8) {
        0 => (q.into(), near.into()),
        1 => (near.into(), q.into()),
        2 => (q.into(), rng.choose(&[q, other]).into()),
        3 | 4 => (faint(rng, width).into(), faint(rng, 2).into()),
        _ => {
            let (a, b) = pair(rng, width);
            (a.into(), b.into())
        }
    }
}

/// A line of an operator that gives a vector; `operands` is the text of its operands.
fn vector_line(rng: &mut Rng, name: &str, operands: &str, result: Vector) -> String {
    let out = stood(rng, &result);
    format!("{} = {name} {operands} {}", vector(&result), lent(&out))
}

/// What ends the line of an operator and its operands.
fn mark(op: Op, a: &Vector, b: &Vector) -> &'static str {
    match is_touched(op, a.header, b.header) {
        true => " standard",
        false => "",
    }
}

/// The operators of two vectors that give a vector, over drawn pairs.
fn lines_of_pairs(rng: &mut Rng, pairs: fn(&mut Rng, u32) -> (Vector, Vector), table: &mut Vec<String>) {
    for (name, op) in BITWISE {
        for width in widths(rng) {
            let (a, b) = pairs(rng, width);
            let operands = format!("{} {}", vector(&a), vector(&b));
            table.push(vector_line(rng, name, &operands, expected(op, &a, &b)) + mark(op, &a, &b));
        }
    }
}

/// The operators that give a vector.
pub fn vector_lines(rng: &mut Rng, table: &mut Vec<String>) {
    lines_of_pairs(rng, pair, table);
    for width in widths(rng) {
        let a = rng.operand(width);
        table.push(vector_line(rng, "bitwise_not", &vector(&a), a.to_value().bitwise_not().into()));
    }
}

/// The operators of two vectors that give a vector, on signed ones.
pub fn signed_lines(rng: &mut Rng, table: &mut Vec<String>) {
    lines_of_pairs(rng, signed_pair, table);
}

/// The operators of one operand that give a bit.
fn lines_of_one(rng: &mut Rng, table: &mut Vec<String>) {
    for (name, operator) in REDUCTIONS {
        for width in widths(rng) {
            let a = Operand::from(rng.operand(width));
            table.push(format!("{} = {name} {}", bit(operator(&a.value)), a.text));
        }
    }
    for width in widths(rng) {
        let a: Operand = match rng.below(4) {
            0 => rng.quotient().into(),
            1 => faint(rng, width).into(),
            _ => rng.operand(width).into(),
        };
        table.push(format!("{} = is_nonzero {}", bit(truth_bit(a.value.is_nonzero())), a.text));
    }
}

/// The operators of two operands that give a bit.
fn lines_of_two(rng: &mut Rng, table: &mut Vec<String>) {
    for (name, operator) in OF_OPERANDS {
        for width in widths(rng) {
            let (a, b) = operands(rng, width);
            table.push(format!("{} = {name} {} {}", bit(operator(&a.value, &b.value)), a.text, b.text));
        }
    }
    for (name, op) in OF_VECTORS {
        for width in widths(rng) {
            let (a, b) = pair(rng, width);
            let answer = bit(expected(op, &a, &b));
            table.push(format!("{answer} = {name} {} {}{}", vector(&a), vector(&b), mark(op, &a, &b)));
        }
    }
}

/// The operators that give a bit.
pub fn bit_lines(rng: &mut Rng, table: &mut Vec<String>) {
    lines_of_one(rng, table);
    lines_of_two(rng, table);
}

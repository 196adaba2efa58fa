//! What the operators of two vectors have to give since document 02, point 2: for operands that it touches the answer of IEEE 1800-2017, worked
//! out here from its definitions, bit by bit; for all others the reference's. Nothing here calls the library.
use super::value::Value;
use super::Vector;
use crate::planes::word_count;
use crate::steps::Op;
use crate::Header;

/// The operators that the request touches.
pub const OPS: [Op; 5] = [Op::And, Op::Or, Op::Xor, Op::Merge, Op::WildcardEqual];

/// Whether the answer for operands of these headers is the standard's and no longer the reference's.
pub fn is_touched(op: Op, a: Header, b: Header) -> bool {
    let has_fill = a.is_fill || b.is_fill;
    let are_signed = is_signed(a, b);
    match op {
        Op::And | Op::Or | Op::Xor => are_signed && a.width != b.width,
        // The reference's merge is unsigned above 64 bits.
        Op::Merge => has_fill || are_signed && (a.width != b.width || a.width.max(b.width) > 64),
        Op::WildcardEqual => has_fill,
        _ => false,
    }
}

/// What an operator of two vectors has to give.
pub fn expected(op: Op, a: &Vector, b: &Vector) -> Vector {
    match is_touched(op, a.header, b.header) {
        true => by_standard(op, a, b),
        false => by_reference(op, a, b),
    }
}

/// What the reference gives.
pub fn by_reference(op: Op, a: &Vector, b: &Vector) -> Vector {
    let operator = match op {
        Op::And => Value::bitwise_and,
        Op::Or => Value::bitwise_or,
        Op::Xor => Value::bitwise_xor,
        Op::Merge => Value::merge_unknown,
        Op::Equal => Value::is_equal,
        Op::CaseEqual => Value::case_eq,
        Op::CasezEqual => Value::casez_eq,
        Op::CasexEqual => Value::casex_eq,
        Op::WildcardEqual => Value::wildcard_eq,
        op => panic!("{op} is no operator of two vectors"),
    };
    operator(&a.to_value(), &b.to_value()).into()
}

/// What the standard gives by one of `OPS`, but that and, or and xor of two signed operands are unsigned, as document 02 has them.
pub fn by_standard(op: Op, a: &Vector, b: &Vector) -> Vector {
    let are_signed = is_signed(a.header, b.header);
    // 11.6.1: both operands get the larger of their lengths.
    let length = a.header.width.max(b.header.width) as usize;
    let places = (0..length).map(|i| (bit(a, i, are_signed), bit(b, i, are_signed)));
    match op {
        Op::And => vector(false, places.map(and).collect()),
        Op::Or => vector(false, places.map(or).collect()),
        Op::Xor => vector(false, places.map(xor).collect()),
        Op::Merge => vector(are_signed, places.map(merge).collect()),
        Op::WildcardEqual => vector(false, vec![wildcard_equal(places)]),
        op => panic!("{op} is not defined here"),
    }
}

/// 11.8.1: an expression is signed if all its operands are. 5.7.1: a fill is unsigned.
fn is_signed(a: Header, b: Header) -> bool {
    [a, b].iter().all(|h| h.is_signed && !h.is_fill)
}

/// Bit i of an operand of an expression.
fn bit(v: &Vector, i: usize, are_signed: bool) -> u8 {
    let width = v.header.width as usize;
    if v.header.is_fill {
        // 5.7.1: all bits are set to the value of the one that is given.
        v.code(0)
    } else if i < width {
        v.code(i)
    } else if are_signed && width > 0 {
        // 11.8.2: the sign is extended only if the expression is signed. 11.8.4: an x or z in its place too.
        v.code(width - 1)
    } else {
        // 11.8.2; an empty vector, which the standard does not have, by document 02.
        0
    }
}

const X: u8 = 2;

/// 11.4.8
fn and(place: (u8, u8)) -> u8 {
    match place {
        (0, _) | (_, 0) => 0,
        (1, 1) => 1,
        _ => X,
    }
}

/// 11.4.8
fn or(place: (u8, u8)) -> u8 {
    match place {
        (1, _) | (_, 1) => 1,
        (0, 0) => 0,
        _ => X,
    }
}

/// 11.4.8
fn xor(place: (u8, u8)) -> u8 {
    match place {
        (0, 1) | (1, 0) => 1,
        (0, 0) | (1, 1) => 0,
        _ => X,
    }
}

/// 11.4.11: both arms where the condition is unknown.
fn merge(place: (u8, u8)) -> u8 {
    match place {
        (0, 0) => 0,
        (1, 1) => 1,
        _ => X,
    }
}

/// 11.4.6: x and z on the right match any bit; the other places are compared as 11.4.5 has it.
fn wildcard_equal(places: impl Iterator<Item = (u8, u8)>) -> u8 {
    let mut answer = 1;
    for place in places {
        match place {
            (_, 2 | 3) | (0, 0) | (1, 1) => {}
            (0, 1) | (1, 0) => return 0,
            _ => answer = X,
        }
    }
    answer
}

/// The vector of these bits, lowest first; it is no fill.
fn vector(is_signed: bool, codes: Vec<u8>) -> Vector {
    let width = codes.len() as u32;
    let words = word_count(width);
    let mut v = Vector::plain(width, vec![0; words], vec![0; words]);
    v.header.is_signed = is_signed;
    codes.into_iter().enumerate().for_each(|(i, code)| v.set_code(i, code));
    v
}

/// How many calls had operands that the request touches, and how many others.
#[derive(Clone, Copy, Debug, Default)]
pub struct Shares {
    pub touched: usize,
    pub untouched: usize,
}

impl Shares {
    pub fn count(&mut self, is_touched: bool) {
        match is_touched {
            true => self.touched += 1,
            false => self.untouched += 1,
        }
    }

    /// Sees that each is a tenth of all calls at least. `of` says which calls.
    pub fn expect(&self, of: &str) {
        println!("{of}: {self:?}");
        let least = (self.touched + self.untouched).div_ceil(10);
        assert!(self.touched.min(self.untouched) >= least.max(1), "{of}: {self:?}");
    }
}

//! Vectors, bits and answers as the table has them.
use crate::reference::Vector;

/// The bits of two planes below a width, highest first.
fn bits(width: usize, value: &[u64], unknown: &[u64]) -> String {
    let digit = |i: usize| {
        let code = (value[i / 64] >> (i % 64) & 1) | (unknown[i / 64] >> (i % 64) & 1) << 1;
        char::from(b"01xz"[code as usize])
    };
    (0..width).rev().map(digit).collect()
}

/// All bits of two planes, without leading zeros.
pub fn left(value: &[u64], unknown: &[u64]) -> String {
    let all = bits(value.len() * 64, value, unknown);
    match all.trim_start_matches('0') {
        "" => "0".to_string(),
        rest => rest.to_string(),
    }
}

/// A vector as its width, the lengths of its planes, and all their bits without leading zeros.
pub fn lent(v: &Vector) -> String {
    let words = v.value.len();
    format!("{}:{words}:{words}:{}", v.header.width, left(&v.value, &v.unknown))
}

/// The letter of a vector's marks, and its bits or, where that is shorter, its planes.
pub fn vector(v: &Vector) -> String {
    let letter = match (v.header.is_fill, v.header.is_signed) {
        (false, false) => 'u',
        (false, true) => 's',
        (true, false) => 'f',
        (true, true) => 'g',
    };
    let bits = bits(v.header.width as usize, &v.value, &v.unknown);
    let lent = lent(v);
    let shorter = if lent.len() < bits.len() { lent } else { bits };
    format!("{letter}{shorter}")
}

/// An answer of one bit.
pub fn bit(answer: impl Into<Vector>) -> String {
    let v = answer.into();
    assert_eq!(v.header, Vector::plain(1, vec![], vec![]).header);
    bits(1, &v.value, &v.unknown)
}

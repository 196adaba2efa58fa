//! The bit of a comparison of two vectors and the rule that decides it, place by place from the words of document 02, point 3. Nothing here calls
//! the library.
use vowherunga::Rule;

/// A vector: its bits as the characters 0, 1, x and z, lowest first, and its marks.
#[derive(Clone, Debug, PartialEq, Eq)]
pub struct Bits {
    pub places: Vec<u8>,
    pub is_signed: bool,
    pub is_fill: bool,
}

#[derive(Clone, Copy, Debug, PartialEq, Eq)]
pub enum Comparison {
    Equality,
    Wildcard,
}

/// The character of the bit, and the rule.
pub fn decision(comparison: Comparison, a: &Bits, b: &Bits) -> (char, Rule) {
    let (p, q) = (seen(a, b), seen(b, a));
    let is_compared = |i: &usize| comparison == Comparison::Equality || is_known(q[*i]);
    let differ = |i: &usize| is_known(p[*i]) && is_known(q[*i]) && p[*i] != q[*i];
    let is_unknown = |i: &usize| !is_known(p[*i]) || !is_known(q[*i]);
    let lowest = |holds: &dyn Fn(&usize) -> bool| (0..p.len()).filter(is_compared).find(holds);
    match (lowest(&differ), lowest(&is_unknown)) {
        (Some(i), _) => ('0', Rule::KnownMismatch(i as u32)),
        (None, Some(i)) => ('x', Rule::Unknown(i as u32)),
        (None, None) => ('1', Rule::AllEqual),
    }
}

fn is_known(bit: u8) -> bool {
    bit == b'0' || bit == b'1'
}

/// A vector as the comparison with another sees it: as wide as the wider of the two.
fn seen(v: &Bits, other: &Bits) -> Vec<u8> {
    let width = v.places.len().max(other.places.len());
    if v.is_fill {
        // all its bits become its bit 0
        return vec![v.places[0]; width];
    }
    let are_signed = [v, other].iter().all(|o| o.is_signed && !o.is_fill);
    let beyond = match v.places.last() {
        Some(top) if are_signed => *top,
        _ => b'0',
    };
    let mut places = v.places.clone();
    places.resize(width, beyond);
    places
}

//! Answers of the calls on one vector that is lent for writing.
use super::text::{left, lent, vector};
use super::{stood, widths};
use crate::reference::draw::{counts, low_bits, Rng};
use crate::reference::value::{LogicBit, Value};
use crate::reference::Vector;

/// A place in a vector of a width or just behind it, and a count of bits from there.
fn place(rng: &mut Rng, width: u32) -> (usize, usize) {
    let i = rng.below(u64::from(width) + 2) as usize;
    (i, rng.choose(&counts(width, i)))
}

/// Bits to insert at a place: as many as the vector takes, and a few above them.
fn inserted(rng: &mut Rng, width: u32, i: usize, n: usize) -> (u64, u64) {
    let taken = n.min((width as usize).saturating_sub(i));
    let kept = low_bits((taken + 3).min(64));
    (rng.word() & kept, rng.word() & kept)
}

/// One call of each entry of `planes`, at a width.
fn planes_lines(rng: &mut Rng, width: u32, table: &mut Vec<String>) {
    let v = rng.vector(width);
    let planes = v.to_planes();
    let operand = vector(&v);
    let (i, n) = place(rng, width);
    let bit = LogicBit::from_code(rng.below(4) as u8);
    let (value, unknown) = inserted(rng, width, i, n);

    table.push(format!("{} = get {operand} {i}", planes.get(i)));

    let mut after = planes.clone();
    after.set(i, bit);
    table.push(format!("{} = set {operand} {i} {bit}", left(&after.val, &after.xz)));

    let mut after = planes.clone();
    after.splice64(i, value, unknown, n);
    table.push(format!(
        "{} = splice64 {operand} {i} {} {n}",
        left(&after.val, &after.xz),
        left(&[value], &[unknown])
    ));

    let (value, unknown) = planes.extract64(i, n);
    table.push(format!("{} = extract64 {operand} {i} {n}", left(&[value], &[unknown])));

    let unmasked = stood(rng, &v);
    let mut after = unmasked.to_planes();
    after.mask_top();
    table.push(format!("{} = mask_top {}", left(&after.val, &after.xz), lent(&unmasked)));
}

/// One insert at a width; one in four inserts what stands there.
fn insert_line(rng: &mut Rng, width: u32) -> String {
    let v = rng.operand(width);
    let (i, n) = place(rng, width);
    let (value, unknown) = match rng.below(4) {
        0 => v.to_planes().extract64(i, n),
        _ => inserted(rng, width, i, n),
    };
    let mut after = v.to_value();
    let changed = u8::from(after.splice_bits64(i, value, unknown, n));
    let after = Vector::from(after);
    format!(
        "{} = splice_bits64 {} {i} {} {n} {changed}",
        left(&after.value, &after.unknown),
        vector(&v),
        left(&[value], &[unknown])
    )
}

/// One call that makes a vector of a width; `operand` is what follows the planes lent for it.
fn made_line(rng: &mut Rng, name: &str, width: u32, made: Value, operand: &str) -> String {
    let made = Vector::from(made);
    let mut out = stood(rng, &made);
    out.header.width = width;
    format!("{} = {name} {}{operand}", vector(&made), lent(&out))
}

/// One call of each constructor, at a width.
fn constructor_lines(rng: &mut Rng, width: u32, table: &mut Vec<String>) {
    let val = rng.word();
    table.push(made_line(rng, "new", width, Value::new(width), ""));
    table.push(made_line(rng, "zero", width, Value::zero(width), ""));
    table.push(made_line(rng, "from_u64", width, Value::from_u64(val, width), &format!(" {val}")));
}

/// One real made a vector of a width.
fn real_line(rng: &mut Rng, width: u32) -> String {
    let q = rng.quotient();
    let made = Value::from_real_wrapped(q.real(), width);
    made_line(rng, "from_real_wrapped", width, made, &format!(" {q}"))
}

/// The calls on bits and words go to one table, those that make a vector to another.
pub fn lines(rng: &mut Rng, bits: &mut Vec<String>, made: &mut Vec<String>) {
    for width in widths(rng) {
        planes_lines(rng, width, bits);
    }
    for width in [0, 1, 2, 3, 62, 63, 64, 65, 66, 127, 128, 129, 193] {
        constructor_lines(rng, width, made);
    }
    for width in widths(rng) {
        bits.push(insert_line(rng, width));
    }
    for width in widths(rng) {
        made.push(real_line(rng, width));
    }
}

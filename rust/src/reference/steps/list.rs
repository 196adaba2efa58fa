//! A step list as a value, and its text.
use crate::planes::word_count;
use crate::reference::Vector;
use crate::steps::{Op, Step};
use std::fmt::Write;

/// The inputs are unsigned, signed, or unsigned fills.
#[derive(Clone, Debug, PartialEq, Eq)]
pub struct List {
    pub inputs: Vec<Vector>,
    pub steps: Vec<Step>,
}

/// How many of a, b and c an op uses; the last one of an insert is its position.
pub fn operands(op: Op) -> usize {
    match op {
        Op::Not | Op::ReduceAnd | Op::ReduceOr | Op::ReduceXor => 1,
        Op::Select | Op::Insert => 3,
        _ => 2,
    }
}

/// Whether a step of the op keeps known bits: all ops but the case and wildcard comparisons.
pub fn keeps_known(op: Op) -> bool {
    !matches!(op, Op::CaseEqual | Op::CasezEqual | Op::CasexEqual | Op::WildcardEqual)
}

/// The bits of a vector, highest first.
pub fn digits(v: &Vector) -> String {
    let digit = |i| char::from(b"01xz"[usize::from(v.code(i))]);
    (0..v.header.width as usize).rev().map(digit).collect()
}

/// The vector of a line's kind and bits.
fn vector(kind: &str, digits: &str) -> Option<Vector> {
    let width = u32::try_from(digits.len()).ok()?;
    let words = word_count(width);
    let mut v = Vector::plain(width, vec![0; words], vec![0; words]);
    v.header.is_signed = kind == "s";
    v.header.is_fill = kind == "f";
    for (i, digit) in digits.bytes().rev().enumerate() {
        v.set_code(i, b"01xz".iter().position(|d| *d == digit)? as u8);
    }
    Some(v)
}

impl List {
    /// The text that the list has, if it keeps the format's limits.
    pub fn text(&self) -> String {
        let mut text = format!("inputs={}\nsteps={}\n", self.inputs.len(), self.steps.len());
        for v in &self.inputs {
            let kind = match (v.header.is_fill, v.header.is_signed) {
                (false, false) => 'u',
                (false, true) => 's',
                (true, _) => 'f',
            };
            writeln!(text, "width={}\nkind={kind}\nbits={}", v.header.width, digits(v)).unwrap();
        }
        for Step { op, a, b, c } in &self.steps {
            writeln!(text, "op={op}\na={a}\nb={b}\nc={c}").unwrap();
        }
        text
    }

    /// Whether the numbers are within the format's limits, and those that an op does not use are 0.
    fn is_within_limits(&self) -> bool {
        let unused = |s: &Step| [s.a, s.b, s.c].into_iter().skip(operands(s.op));
        self.inputs.len() <= 64
            && self.steps.len() <= 256
            && self.inputs.iter().all(|v| v.header.width <= 4096)
            && self.steps.iter().all(|s| unused(s).all(|n| n == 0))
    }

    /// The list that a text seems to be, whatever else the text breaks.
    fn guess(text: &str) -> Option<List> {
        let mut values = text.split('\n').map(|line| line.split_once('=').map_or("", |(_, value)| value));
        let mut next = || values.next();
        let inputs: usize = next()?.parse().ok()?;
        let steps: usize = next()?.parse().ok()?;
        let mut list = List {
            inputs: Vec::new(),
            steps: Vec::new(),
        };
        for _ in 0..inputs {
            let (_width, kind, digits) = (next()?, next()?, next()?);
            list.inputs.push(vector(kind, digits)?);
        }
        for _ in 0..steps {
            let op = next()?.parse().ok()?;
            let mut number = || next()?.parse().ok();
            let (a, b, c) = (number()?, number()?, number()?);
            list.steps.push(Step { op, a, b, c });
        }
        Some(list)
    }

    /// The list whose text this is. A text is one exactly if it is the text of a list within the limits.
    pub fn read(text: &[u8]) -> Option<List> {
        let text = std::str::from_utf8(text).ok().filter(|text| text.len() <= 65_536)?;
        List::guess(text).filter(|list| list.is_within_limits() && list.text() == text)
    }
}

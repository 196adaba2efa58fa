//! The reference, compiled in place and unmodified, and what every comparison with it needs: a vector that owns its planes, drawn inputs,
//! reals, the answers of the standard where the library departs from it, the tables of answers, and step lists worked out. Beside it stand not
//! and truth bit by bit.
include!(concat!(env!("OUT_DIR"), "/reference.rs"));

pub mod answers;
pub mod bit_by_bit;
pub mod draw;
pub mod reals;
pub mod standard;
pub mod steps;

use crate::{planes, Header};
use value::{LogicBit, Value, WidePlanes};

impl Value {
    /// The reference calls this function and its published file lacks it: every bit is z.
    pub fn all_z(width: u32) -> Value {
        let mut v = Value::new(width);
        for i in 0..v.width as usize {
            v.set_bit(i, LogicBit::Z);
        }
        v
    }
}

/// The bit that stands for a truth of the reference.
pub fn truth_bit(truth: Option<bool>) -> Value {
    match truth {
        Some(known) => Value::from_u64(u64::from(known), 1),
        None => Value::new(1),
    }
}

/// A vector that owns its planes.
#[derive(Clone, Debug, PartialEq, Eq)]
pub struct Vector {
    pub header: Header,
    pub value: Vec<u64>,
    pub unknown: Vec<u64>,
}

impl Vector {
    /// An unsigned vector that is no fill.
    pub fn plain(width: u32, value: Vec<u64>, unknown: Vec<u64>) -> Vector {
        let header = Header {
            width,
            is_signed: false,
            is_fill: false,
        };
        Vector { header, value, unknown }
    }

    /// Makes it signed and no fill.
    pub fn make_signed(&mut self) {
        self.header.is_signed = true;
        self.header.is_fill = false;
    }

    /// The code of bit i, below the width.
    pub fn code(&self, i: usize) -> u8 {
        let bit = |plane: &[u64]| (plane[i / 64] >> (i % 64) & 1) as u8;
        bit(&self.value) | bit(&self.unknown) << 1
    }

    /// Makes bit i, below the width, the one of a code.
    pub fn set_code(&mut self, i: usize, code: u8) {
        let put = |plane: &mut [u64], bit: u8| plane[i / 64] = plane[i / 64] & !(1 << (i % 64)) | u64::from(bit) << (i % 64);
        put(&mut self.value, code & 1);
        put(&mut self.unknown, code >> 1);
    }

    /// The reference's value with these bits and marks.
    pub fn to_value(&self) -> Value {
        let width = self.header.width;
        let mut v = match width {
            0..=64 => Value::from_inline(self.value[0], self.unknown[0], width),
            _ => Value::zero(width),
        };
        if width > 64 {
            for (i, (value, unknown)) in self.value.iter().zip(&self.unknown).enumerate() {
                v.splice_bits64(i * 64, *value, *unknown, 64);
            }
        }
        v.is_signed = self.header.is_signed;
        v.is_fill = self.header.is_fill;
        v
    }

    /// The reference's planes with these words.
    pub fn to_planes(&self) -> WidePlanes {
        WidePlanes {
            val: self.value.clone(),
            xz: self.unknown.clone(),
            nbits: self.header.width,
        }
    }
}

impl From<Value> for Vector {
    /// The stored words of a narrow value as they are; a wide one's bit by bit.
    fn from(v: Value) -> Vector {
        assert!(!v.is_real, "a real has no planes");
        let words = planes::word_count(v.width);
        let mut out = Vector::plain(v.width, vec![0; words], vec![0; words]);
        out.header.is_signed = v.is_signed;
        out.header.is_fill = v.is_fill;
        if let Some((value, unknown)) = v.inline_bits() {
            out.value[0] = value;
            out.unknown[0] = unknown;
            return out;
        }
        for i in 0..v.width as usize {
            let code = u64::from(v.get_bit_code(i));
            out.value[i / 64] |= (code & 1) << (i % 64);
            out.unknown[i / 64] |= (code >> 1) << (i % 64);
        }
        out
    }
}

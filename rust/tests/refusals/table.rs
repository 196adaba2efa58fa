//! Bad operands, and good ones at the edge of them.
use vowherunga::{Header, Operand, MAX_WIDTH};

/// What is handed over as an operand, a plane as its words, and the numbers by which `mask_top`, the other entries of `planes` and the
/// operators refuse it; 0 is done.
pub struct Input {
    pub operand: Operand,
    pub value: Vec<u64>,
    pub unknown: Vec<u64>,
    pub mask_top: u8,
    pub planes: u8,
    pub operators: u8,
}

impl Input {
    /// A vector's header.
    pub fn header(&self) -> Option<Header> {
        match self.operand {
            Operand::Vector(header) => Some(header),
            Operand::Real(_) => None,
        }
    }
}

/// A signed vector: the sign is no reason to refuse.
fn vector(width: u32, value: &[u64], unknown: &[u64], mask_top: u8, others: u8) -> Input {
    let header = Header {
        width,
        is_signed: true,
        is_fill: false,
    };
    Input {
        operand: Operand::Vector(header),
        value: value.to_vec(),
        unknown: unknown.to_vec(),
        mask_top,
        planes: others,
        operators: others,
    }
}

/// A fill, whose mark only the operators see.
fn fill(width: u32, value: &[u64], unknown: &[u64], operators: u8) -> Input {
    let header = Header {
        width,
        is_signed: false,
        is_fill: true,
    };
    Input {
        operand: Operand::Vector(header),
        operators,
        ..vector(width, value, unknown, 0, 0)
    }
}

/// A real, which only operators take.
fn real(f: f64, value: &[u64], unknown: &[u64], operators: u8) -> Input {
    Input {
        operand: Operand::Real(f),
        ..fill(0, value, unknown, operators)
    }
}

/// Vectors that are no fills.
pub fn vectors() -> Vec<Input> {
    let widest = vec![0; 16_384];
    let wider = vec![0; 16_385];
    vec![
        // 1: the width alone
        vector(MAX_WIDTH + 1, &wider, &wider, 1, 1),
        // 1 comes before 2 and 3
        vector(MAX_WIDTH + 1, &[], &[], 1, 1),
        vector(u32::MAX, &[u64::MAX], &[u64::MAX, 0], 1, 1),
        // 2: the value plane, the unknown plane, both; a word short or over, or none
        vector(MAX_WIDTH, &widest[1..], &widest, 2, 2),
        vector(MAX_WIDTH, &widest, &wider, 2, 2),
        vector(64, &[0, 0], &[0], 2, 2),
        vector(64, &[0], &[0, 0], 2, 2),
        vector(65, &[0], &[0], 2, 2),
        vector(65, &[0, 0], &[0], 2, 2),
        vector(1, &[], &[0], 2, 2),
        vector(1, &[0], &[], 2, 2),
        vector(0, &[], &[], 2, 2),
        vector(0, &[0, 0], &[0], 2, 2),
        // 2 comes before 3
        vector(3, &[8], &[0, 0], 2, 2),
        vector(3, &[0, 0], &[8], 2, 2),
        // 3: in the value plane, in the unknown plane; not for `mask_top`
        vector(3, &[8], &[0], 0, 3),
        vector(3, &[0], &[8], 0, 3),
        vector(63, &[1 << 63], &[0], 0, 3),
        vector(65, &[0, 2], &[0, 0], 0, 3),
        vector(65, &[0, 0], &[0, 1 << 63], 0, 3),
        vector(0, &[1], &[0], 0, 3),
        vector(0, &[0], &[1], 0, 3),
        // nothing of it: the last bit below the width
        vector(0, &[0], &[0], 0, 0),
        vector(3, &[4], &[4], 0, 0),
        vector(64, &[u64::MAX], &[u64::MAX], 0, 0),
        vector(65, &[0, 1], &[0, 1], 0, 0),
        vector(MAX_WIDTH, &widest, &widest, 0, 0),
    ]
}

/// Fills and reals.
pub fn fills_and_reals() -> Vec<Input> {
    vec![
        // 4: a fill of width 0
        fill(0, &[0], &[0], 4),
        // 1, 2 and 3 come before 4
        fill(MAX_WIDTH + 1, &[0], &[0], 1),
        fill(0, &[], &[0], 2),
        fill(0, &[1], &[0, 0], 2),
        fill(0, &[0], &[1], 3),
        // nothing of it
        fill(1, &[1], &[1], 0),
        // 2: a real with planes
        real(1.0, &[0], &[0], 2),
        real(f64::NAN, &[0], &[], 2),
        real(0.0, &[], &[0], 2),
        // nothing of it
        real(f64::NAN, &[], &[], 0),
        real(0.0, &[], &[], 0),
    ]
}

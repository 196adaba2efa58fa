//! Reals for comparisons: the special ones, drawn ones, quotients, and vectors that lie near a real.
use super::draw::Rng;
use super::Vector;
use std::fmt;

/// Zero, subnormals, halves and what lies beside them, the neighbours of powers of 2 where a real runs out of bits or a word of room,
/// infinity and NaN; each with both signs.
pub fn special() -> Vec<f64> {
    let mut all = vec![0.0, f64::MIN_POSITIVE, f64::MAX, f64::INFINITY, f64::NAN, f64::EPSILON];
    // the least and the largest subnormal, a NaN that signals
    all.extend([1, (1 << 52) - 1, 0x7ff0_0000_0000_0001].map(f64::from_bits));
    all.extend([0.5, 1.0, 1.5, 2.0, 2.5, 3.5, 4.5, 1e30, 1e300]);
    for power in [-1, 0, 31, 32, 51, 52, 53, 54, 62, 63, 64, 65, 100, 127, 128, 129, 192, 1023] {
        let p = f64::powi(2.0, power);
        all.extend([p.next_down(), p, p.next_up()]);
    }
    // the last halves
    all.extend([51, 52].map(|power| f64::powi(2.0, power) - 0.5));
    all.iter().flat_map(|f| [*f, -*f]).collect()
}

/// A real as a quotient of two numbers, each of which a real holds exactly; infinite or NaN if the lower one is 0.
#[derive(Clone, Copy)]
pub struct Quotient {
    minus: bool,
    upper: u64,
    lower: u64,
}

impl Quotient {
    pub fn real(self) -> f64 {
        let f = self.upper as f64 / self.lower as f64;
        if self.minus {
            -f
        } else {
            f
        }
    }
}

impl fmt::Display for Quotient {
    /// As the tables of answers have it: r-5/2.
    fn fmt(&self, f: &mut fmt::Formatter) -> fmt::Result {
        let sign = if self.minus { "-" } else { "" };
        write!(f, "r{sign}{}/{}", self.upper, self.lower)
    }
}

impl Rng {
    /// Any pattern of bits, or a number of either sign below 2 to the 140, or a half.
    pub fn real(&mut self) -> f64 {
        let sign = self.below(2) << 63;
        match self.below(4) {
            0 => f64::from_bits(self.next()),
            1 => f64::from_bits(sign | ((self.below(1 << 50) as f64 + 0.5).to_bits())),
            _ => f64::from_bits(sign | ((1020 + self.below(143)) << 52) | self.next() >> 12),
        }
    }

    /// Zero, infinity, NaN, the last half, a small half, the neighbours of a power of 2 from 2 to the 52 to 2 to the 63, or a number up to that.
    pub fn quotient(&mut self) -> Quotient {
        let power = f64::powi(2.0, 52 + self.below(12) as i32);
        let shift = self.choose(&[1, 1, 11, 32, 56, 60]);
        let (upper, lower) = match self.below(6) {
            0 => self.choose(&[(0, 1), (1, 0), (0, 0), ((1 << 53) - 1, 2)]),
            1 | 2 => (self.below(16), 2),
            3 => (self.choose(&[power.next_down(), power, power.next_up()]) as u64, 1),
            _ => ((self.next() >> shift) as f64 as u64, 1),
        };
        Quotient {
            minus: self.below(2) == 0,
            upper,
            lower,
        }
    }

    /// A vector with any marks whose low 64 bits are about the number that a real is; behind them and in the unknown plane any bits, or none.
    pub fn near(&mut self, f: f64, width: u32) -> Vector {
        let low = (f as i128 as u64).wrapping_add(self.choose(&[0, 0, 0, 1, u64::MAX, 1 << 10]));
        let mut v = self.operand(width);
        let keep_unknown = self.below(4) == 0;
        let keep_high = self.below(2) == 0;
        for i in 0..width as usize {
            let high = if keep_high { v.code(i) & 1 } else { 0 };
            let bit = if i < 64 { (low >> i & 1) as u8 } else { high };
            let unknown = if keep_unknown { v.code(i) & 2 } else { 0 };
            v.set_code(i, bit | unknown);
        }
        v
    }
}

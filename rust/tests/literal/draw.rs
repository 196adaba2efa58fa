//! Literals drawn from a fixed seed: the same in every run.
pub use crate::generator::Draw;

impl Draw {
    /// So many of these.
    pub fn some(&mut self, from: &[u8], n: usize) -> Vec<u8> {
        (0..n).map(|_| self.choose(from)).collect()
    }

    /// A size: at the edge of a word or of all sizes, small, or any.
    pub fn size(&mut self) -> usize {
        match self.below(3) {
            0 => self.choose(&EDGES),
            1 => 1 + self.below(70),
            _ => 1 + self.below(4096),
        }
    }

    /// A literal of a size and a base.
    pub fn literal(&mut self, size: usize, base: u8) -> Vec<u8> {
        let value = self.value(size, base);
        let size = self.with_underscores(size.to_string().as_bytes());
        let sign = self.choose(&["", "", "s", "S"]).as_bytes();
        let base = self.choose(&[base, base.to_ascii_uppercase()]);
        [&size, &b"'"[..], sign, &[base], &self.with_underscores(&value)].concat()
    }

    /// Underscores put in behind digits, or none.
    fn with_underscores(&mut self, digits: &[u8]) -> Vec<u8> {
        let often = self.choose(&[0, 0, 1, 8]);
        let mut text = Vec::new();
        for digit in digits {
            text.push(*digit);
            while self.below(10) < often {
                text.push(b'_');
            }
        }
        text
    }

    /// Digits of a base, from one to twice as many as the size takes and more; a decimal is at times an x or a z.
    fn value(&mut self, size: usize, base: u8) -> Vec<u8> {
        let (full, digits): (usize, &[u8]) = match base {
            b'b' => (size, b"01"),
            b'o' => (size.div_ceil(3), b"01234567"),
            b'h' => (size.div_ceil(4), b"0123456789abcdefABCDEF"),
            _ => (size * 3 / 10 + 1, b"0123456789"),
        };
        if base == b'd' && self.below(4) == 0 {
            return self.some(UNKNOWN, 1);
        }
        let count = match self.below(4) {
            0 => 1 + self.below(4),
            1 => full.max(2) - 1 + self.below(3),
            2 => 1 + self.below(full),
            _ => full + self.below(full + 40),
        };
        let mut value = self.some(digits, count);
        // the largest number, a digit behind zeros, any; and for other bases x or z first, rarely or often
        match self.below(if base == b'd' { 3 } else { 6 }) {
            0 => value.fill(digits[digits.len() - 1]),
            1 => value[..count - 1].fill(b'0'),
            2 => {}
            3 => value[0] = self.choose(UNKNOWN),
            4 => self.make_unknown(&mut value, 1),
            _ => self.make_unknown(&mut value, 8),
        }
        value
    }

    /// Makes each digit x or z with a chance of so many in twelve.
    fn make_unknown(&mut self, value: &mut [u8], often: usize) {
        for digit in value {
            if self.below(12) < often {
                *digit = self.choose(UNKNOWN);
            }
        }
    }
}

/// Sizes at the edge of a digit, of a word, and of all sizes.
pub const EDGES: [usize; 17] = [1, 2, 3, 4, 5, 8, 9, 12, 63, 64, 65, 127, 128, 129, 192, 4095, 4096];

pub const BASES: [u8; 4] = *b"bodh";

/// The digits that are x or z.
pub const UNKNOWN: &[u8] = b"xXzZ?";

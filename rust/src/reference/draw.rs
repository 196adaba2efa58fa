//! Inputs drawn from a fixed seed: the same in every run.
use super::Vector;
use crate::planes;

/// The generator xorshift64*.
pub struct Rng(u64);

impl Rng {
    /// The seed is not 0.
    pub fn new(seed: u64) -> Rng {
        assert_ne!(seed, 0);
        Rng(seed)
    }

    pub fn next(&mut self) -> u64 {
        self.0 ^= self.0 >> 12;
        self.0 ^= self.0 << 25;
        self.0 ^= self.0 >> 27;
        self.0.wrapping_mul(0x2545_f491_4f6c_dd1d)
    }

    /// A number below n.
    pub fn below(&mut self, n: u64) -> u64 {
        self.next() % n
    }

    pub fn choose<T: Copy>(&mut self, from: &[T]) -> T {
        from[self.below(from.len() as u64) as usize]
    }

    /// A word of one of several kinds: no bit, every bit, one bit, all but one, few bits, any.
    pub fn word(&mut self) -> u64 {
        match self.below(6) {
            0 => 0,
            1 => u64::MAX,
            2 => 1 << self.below(64),
            3 => !(1 << self.below(64)),
            4 => self.next() & self.next() & self.next(),
            _ => self.next(),
        }
    }

    fn words(&mut self, width: u32) -> Vec<u64> {
        (0..planes::word_count(width)).map(|_| self.word()).collect()
    }

    /// Planes of the width, with bits at or above it.
    pub fn unmasked(&mut self, width: u32) -> Vector {
        Vector::plain(width, self.words(width), self.words(width))
    }

    fn plane(&mut self, width: u32) -> Vec<u64> {
        let mut plane = self.words(width);
        let kept = width as usize - (plane.len() - 1) * 64;
        *plane.last_mut().unwrap() &= low_bits(kept);
        plane
    }

    /// An unsigned vector; one in three is known.
    pub fn vector(&mut self, width: u32) -> Vector {
        let value = self.plane(width);
        let unknown = match self.below(3) {
            0 => vec![0; value.len()],
            _ => self.plane(width),
        };
        Vector::plain(width, value, unknown)
    }

    /// Marks for a vector of the width: signed, fill. A fill of width 0 is never drawn.
    fn marks(&mut self, width: u32) -> (bool, bool) {
        (self.below(2) == 1, width > 0 && self.below(3) == 0)
    }

    /// Changes up to two bits of a vector, and its marks.
    fn changed(&mut self, mut v: Vector) -> Vector {
        let width = v.header.width;
        for _ in 0..self.below(3).min(u64::from(width)) {
            v.set_code(self.below(u64::from(width)) as usize, self.below(4) as u8);
        }
        (v.header.is_signed, v.header.is_fill) = self.marks(width);
        v
    }

    /// A vector with any marks: any bits, or all bits alike but for two at most.
    pub fn operand(&mut self, width: u32) -> Vector {
        let mut v = self.vector(width);
        if self.below(2) == 0 {
            let code = self.below(4) as u8;
            (0..width as usize).for_each(|i| v.set_code(i, code));
        }
        self.changed(v)
    }

    /// A vector of a width, with any marks, that agrees with another in all places but two at most; behind the other's end it is extended by
    /// 0 or by the other's top bit.
    pub fn like(&mut self, other: &Vector, width: u32) -> Vector {
        let (w, end) = (width as usize, other.header.width as usize);
        let top = if end > 0 && self.below(2) == 0 { other.code(end - 1) } else { 0 };
        let words = planes::word_count(width);
        let mut v = Vector::plain(width, vec![0; words], vec![0; words]);
        (0..w).for_each(|i| v.set_code(i, if i < end { other.code(i) } else { top }));
        self.changed(v)
    }
}

/// The n low bits set, n at most 64.
pub fn low_bits(n: usize) -> u64 {
    match n {
        0 => 0,
        n => u64::MAX >> (64 - n),
    }
}

/// Counts of bits for a splice or an extract at a position: none, few, at and past 64, and such that the last bit lies at a word's edge, just
/// across it, and at the width.
pub fn counts(width: u32, pos: usize) -> [usize; 11] {
    let to_edge = 64 - pos % 64;
    [
        0,
        1,
        2,
        63,
        64,
        65,
        usize::MAX,
        to_edge,
        to_edge - 1,
        to_edge + 1,
        (width as usize).saturating_sub(pos),
    ]
}

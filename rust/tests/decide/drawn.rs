//! Drawn pairs, most of them equal but for a few places, so that each rule decides many.
use crate::evaluator::{Bits, Comparison};
use crate::generator::Draw;
use crate::operand::decides;
use crate::tally::Tally;

pub const PAIRS: usize = 250_000;

impl Draw {
    /// A width up to 200, often at the edge of a word.
    fn width(&mut self) -> usize {
        match self.below(4) {
            0 => self.choose(&[0, 1, 2, 63, 64, 65, 127, 128, 129, 191, 192, 193]),
            1 => self.below(12),
            _ => self.below(201),
        }
    }

    /// So many bits: known ones, any, or one again and again.
    fn bits(&mut self, width: usize) -> Vec<u8> {
        let from: &[u8] = match self.below(8) {
            0 => b"01xz",
            1 => &[self.choose(b"01xz")],
            _ => b"01",
        };
        (0..width).map(|_| self.choose(from)).collect()
    }

    /// A vector of any bits and marks, and one of a width that looks like it there but for a few places. In every second pair both are signed, and
    /// in every fourth a part of the right bits is unknown.
    pub fn pair(&mut self) -> (Bits, Bits) {
        let wa = self.width();
        let wb = if self.below(2) == 0 { wa } else { self.width() };
        let mut a = self.bits(wa);
        let a_is_fill = wa > 0 && self.below(8) == 0;
        let b_is_fill = wb > 0 && self.below(8) == 0;
        let beyond = match a.last() {
            Some(top) if self.below(2) == 0 => *top,
            _ => b'0',
        };
        let mut b: Vec<u8> = match a_is_fill {
            true => vec![a[0]; wb],
            false => (0..wb).map(|i| a.get(i).copied().unwrap_or(beyond)).collect(),
        };
        let may_become: &[u8] = self.choose(&[b"xz", b"xz", b"01", b"01xz"]);
        for _ in 0..self.choose(&[0, 0, 1, 2, 4, 6]) {
            let side = if self.below(3) > 0 { &mut a } else { &mut b };
            if !side.is_empty() {
                let place = self.below(side.len());
                side[place] = self.choose(may_become);
            }
        }
        if self.below(4) == 0 {
            b.iter_mut().filter(|_| self.below(3) == 0).for_each(|bit| *bit = b'z');
        }
        let both_signed = self.below(2) == 0;
        let mut vector = |places, is_fill| Bits {
            places,
            is_signed: both_signed || self.below(3) == 0,
            is_fill,
        };
        (vector(a, a_is_fill), vector(b, b_is_fill))
    }
}

fn drawn_pairs(comparison: Comparison, seed: u64) {
    let mut draw = Draw::new(seed);
    let mut tally = Tally::default();
    for _ in 0..PAIRS {
        let (a, b) = draw.pair();
        tally.count(comparison, &a, &b, decides(comparison, &a, &b));
    }
    tally.expect(PAIRS * 15 / 100);
    let hard = [tally.above_unknown, tally.behind_word_0, tally.behind_an_end];
    assert!(hard.iter().all(|n| *n >= PAIRS / 20), "{tally:?}");
}

#[test]
fn equality() {
    drawn_pairs(Comparison::Equality, 1);
}

#[test]
fn wildcard() {
    drawn_pairs(Comparison::Wildcard, 2);
}

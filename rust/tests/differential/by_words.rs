//! Not and truth by words (document 02, point 4): each word of not is what the operand's words give, and truth is read from words alone, both
//! worked out here; a form that goes bit by bit gives the same. That it refuses alike stands among the refusals.
use crate::alike::{lend, makes_alike};
use crate::narrow::{narrow, same};
use crate::samples::{each_vector, widths, Sample};
use vowherunga::planes::word_count;
use vowherunga::reference::draw::Rng;
use vowherunga::reference::{bit_by_bit, Vector};
use vowherunga::{bitwise, reduce, Header, LogicBit, Truth};

/// Ones at the places of word k that lie below the width.
fn mask(width: u32, k: usize) -> u64 {
    (0..64).filter(|i| k * 64 + i < width as usize).map(|i| 1 << i).sum()
}

/// Not of a vector, each word from the two words of its place.
fn not(a: &Sample) -> Vector {
    let header = Header {
        is_fill: false,
        ..a.header()
    };
    let words = a.value.iter().zip(&a.unknown).enumerate();
    let (value, unknown) = words
        .map(|(k, (value, unknown))| {
            let mask = mask(header.width, k);
            (!(value | unknown) & mask, unknown & mask)
        })
        .unzip();
    Vector { header, value, unknown }
}

fn truth(a: &Sample) -> Truth {
    if a.value.iter().zip(&a.unknown).any(|(value, unknown)| value & !unknown != 0) {
        Truth::True
    } else if a.unknown.iter().any(|word| *word != 0) {
        Truth::Unknown
    } else {
        Truth::False
    }
}

/// How many vectors there were, by how much of the top word they use; and of the wide and the widest ones how many have each truth, by its code.
#[derive(Debug, Default)]
struct Kinds {
    empty: usize,
    partly: usize,
    full: usize,
    wide: [usize; 3],
    widest: [usize; 3],
}

impl Kinds {
    fn count(&mut self, a: &Sample) {
        let width = a.header().width;
        match width % 64 {
            _ if width == 0 => self.empty += 1,
            0 => self.full += 1,
            _ => self.partly += 1,
        }
        let truths = match width {
            0..=64 => return,
            65..=4097 => &mut self.wide,
            _ => &mut self.widest,
        };
        truths[usize::from(LogicBit::from(truth(a)).to_code())] += 1;
    }

    /// Sees that there are enough of each kind.
    fn expect(&self) {
        println!("{self:?}");
        assert!(self.empty > 200 && self.partly > 45_000 && self.full > 500, "{self:?}");
        assert!(self.wide.iter().all(|n| *n > 500), "{self:?}");
        assert!(self.widest.iter().all(|n| *n > 1), "{self:?}");
    }
}

/// Hands to a check each vector, and at each width those that are all 0 but for the lowest or the highest place, or for none.
fn each(seed: u64, mut check: impl FnMut(&Sample)) {
    let mut kinds = Kinds::default();
    let mut check = |a: &Sample| {
        check(a);
        kinds.count(a);
    };
    each_vector(seed, &mut check);
    for width in widths() {
        let words = word_count(width);
        let zero = Vector::plain(width, vec![0; words], vec![0; words]);
        for place in [0, width.saturating_sub(1)].into_iter().filter(|place| *place < width) {
            for code in 1..4 {
                let mut v = zero.clone();
                v.set_code(place as usize, code);
                check(&v.into());
            }
        }
        check(&zero.into());
    }
    kinds.expect();
}

/// Not by words into lent planes, whatever stood in them.
fn gives(rng: &mut Rng, a: &Sample, want: Vector) {
    makes_alike(
        rng,
        || format!("{a:?}"),
        |ov, ou| bitwise::bitwise_not(a.header(), &a.value, &a.unknown, ov, ou),
        want,
    );
}

#[test]
fn not_word_by_word() {
    let mut rng = Rng::new(50);
    each(50, |a| {
        let want = not(a);
        if let Some(x) = narrow(a) {
            same(x.bitwise_not(), want.clone(), || format!("{a:?}"));
        }
        gives(&mut rng, a, want);
    });
}

#[test]
fn not_bit_by_bit() {
    let mut rng = Rng::new(51);
    each(51, |a| {
        let stood = rng.unmasked(a.header().width);
        let (answer, value, unknown) = lend(&stood, |ov, ou| bit_by_bit::bitwise_not(a.header(), &a.value, &a.unknown, ov, ou));
        let header = answer.unwrap();
        gives(&mut rng, a, Vector { header, value, unknown });
    });
}

#[test]
fn truth_word_by_word() {
    each(52, |a| {
        let want = truth(a);
        assert_eq!(reduce::is_nonzero(a.operand, &a.value, &a.unknown), Ok(want), "{a:?}");
        if let Some(x) = narrow(a) {
            assert_eq!(x.is_nonzero(), want, "{a:?}");
        }
    });
}

#[test]
fn truth_bit_by_bit() {
    each(53, |a| {
        let by_bits = bit_by_bit::is_nonzero(a.header(), &a.value, &a.unknown);
        assert_eq!(reduce::is_nonzero(a.operand, &a.value, &a.unknown), by_bits, "{a:?}");
        assert!(by_bits.is_ok(), "{a:?}");
    });
}

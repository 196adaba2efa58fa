//! Operands in the form of either side.
use vowherunga::reference::draw::Rng;
use vowherunga::reference::value::Value;
use vowherunga::reference::Vector;
use vowherunga::{planes, Header, Narrow};

/// A vector that lives as long as the program, and the reference's value of it.
#[derive(Clone, Copy)]
pub struct Input {
    pub header: Header,
    pub value: &'static [u64],
    pub unknown: &'static [u64],
    pub reference: &'static Value,
}

impl Input {
    /// A vector of known bits that a rule gives, some of them then made unknown by another.
    pub fn new(width: u32, mut value: impl FnMut() -> u64, mut unknown: impl FnMut() -> u64) -> Input {
        let n = planes::word_count(width);
        let words = |rule: &mut dyn FnMut() -> u64| (0..n).map(|_| rule()).collect();
        let (mut v, mut u): (Vec<u64>, Vec<u64>) = (words(&mut value), words(&mut unknown));
        planes::mask_top(width, &mut v, &mut u).unwrap();
        let vector = Vector::plain(width, v, u);
        Input {
            header: vector.header,
            reference: Box::leak(Box::new(vector.to_value())),
            value: vector.value.leak(),
            unknown: vector.unknown.leak(),
        }
    }

    /// Random bits; where they are mixed, a random half is unknown.
    pub fn random(rng: &mut Rng, width: u32, mixed: bool) -> Input {
        let mut other = Rng::new(rng.next());
        Input::new(width, || rng.next(), || if mixed { other.next() } else { 0 })
    }

    /// Two equal vectors of random bits; where they are mixed, a random half is unknown.
    pub fn equal(rng: &mut Rng, width: u32, mixed: bool) -> [Input; 2] {
        let seed = rng.next();
        [(), ()].map(|()| Input::random(&mut Rng::new(seed), width, mixed))
    }

    /// One word repeated; where they are mixed, a random half of the bits is unknown.
    pub fn repeated(rng: &mut Rng, width: u32, word: u64, mixed: bool) -> Input {
        Input::new(width, || word, || if mixed { rng.next() } else { 0 })
    }

    /// Random known bits; where they are mixed, the top bit is x.
    pub fn top_unknown(rng: &mut Rng, width: u32, mixed: bool) -> Input {
        let mut left = planes::word_count(width);
        Input::new(
            width,
            || rng.next(),
            || {
                left -= 1;
                if mixed && left == 0 {
                    1 << ((width - 1) % 64)
                } else {
                    0
                }
            },
        )
    }

    /// The vector by value, if it has at most 64 bits.
    pub fn narrow(&self) -> Option<Narrow> {
        match self.value.len() {
            1 => Some(Narrow::new(self.header, self.value[0], self.unknown[0]).unwrap()),
            _ => None,
        }
    }
}

/// Two planes for a result of a width, which every call writes again.
pub fn output(width: u32) -> (&'static mut [u64], &'static mut [u64]) {
    let n = planes::word_count(width);
    (vec![0; n].leak(), vec![0; n].leak())
}

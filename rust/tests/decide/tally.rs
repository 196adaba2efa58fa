//! How often each rule was told.
use crate::evaluator::{Bits, Comparison};
use vowherunga::{Decision, Rule};

#[derive(Debug, Default)]
pub struct Tally {
    pub pairs: usize,
    pub mismatch: usize,
    pub unknown: usize,
    pub all_equal: usize,
    /// Mismatches above a compared place that holds an unknown bit.
    pub above_unknown: usize,
    /// Places that lie behind the first word.
    pub behind_word_0: usize,
    /// Places that lie behind the end of one of the two.
    pub behind_an_end: usize,
}

impl Tally {
    pub fn count(&mut self, comparison: Comparison, a: &Bits, b: &Bits, decision: Decision) {
        self.pairs += 1;
        let place = match decision.rule {
            Rule::KnownMismatch(i) => {
                self.mismatch += 1;
                let [is_unknown_left, is_unknown_right] = [a, b].map(|v| move |i: usize| b"xz".contains(&v.places[i]));
                let end = a.places.len().min(b.places.len()).min(i as usize);
                let found = (0..end).any(|i| match comparison {
                    Comparison::Equality => is_unknown_left(i) || is_unknown_right(i),
                    Comparison::Wildcard => is_unknown_left(i) && !is_unknown_right(i),
                });
                self.above_unknown += usize::from(found);
                i
            }
            Rule::Unknown(i) => {
                self.unknown += 1;
                i
            }
            Rule::AllEqual => return self.all_equal += 1,
            Rule::Numeric => panic!("two vectors are compared as numbers"),
        };
        self.behind_word_0 += usize::from(place >= 64);
        self.behind_an_end += usize::from(place as usize >= a.places.len().min(b.places.len()));
    }

    /// Sees that each rule was told so often at least.
    pub fn expect(&self, least: usize) {
        println!("{self:?}");
        assert!(
            [self.mismatch, self.unknown, self.all_equal].iter().all(|n| *n >= least),
            "{self:?}"
        );
    }
}

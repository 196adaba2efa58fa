//! Every pair of vectors of at most 3 bits, with every mark.
use crate::evaluator::{Bits, Comparison};
use crate::operand::decides;
use crate::tally::Tally;

/// A fill of width 0 is none.
pub fn vectors() -> Vec<Bits> {
    let mut texts = vec![String::new()];
    let mut start = 0;
    for _ in 0..3 {
        let longer: Vec<String> = texts[start..]
            .iter()
            .flat_map(|text| ["0", "1", "x", "z"].map(|bit| format!("{text}{bit}")))
            .collect();
        start = texts.len();
        texts.extend(longer);
    }
    let with_marks = |text: String| {
        let v = Bits::new(&text);
        [v.clone(), v.clone().signed(), v.clone().fill(), v.signed().fill()]
    };
    let all = texts.into_iter().flat_map(with_marks);
    all.filter(|v| !(v.is_fill && v.places.is_empty())).collect()
}

fn all_pairs(comparison: Comparison) -> Tally {
    let all = vectors();
    let mut tally = Tally::default();
    for (a, b) in all.iter().flat_map(|a| all.iter().map(move |b| (a, b))) {
        tally.count(comparison, a, b, decides(comparison, a, b));
    }
    assert_eq!(tally.pairs, 338 * 338);
    tally
}

#[test]
fn equality() {
    all_pairs(Comparison::Equality).expect(4_500);
}

#[test]
fn wildcard() {
    all_pairs(Comparison::Wildcard).expect(30_000);
}

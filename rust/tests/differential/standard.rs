//! The evaluator of the standard's definitions against the reference's `Value`: they agree for all operands that document 02, point 2 leaves as
//! they were, and differ for many of the others.
use crate::samples::each_pair;
use vowherunga::reference::standard::{by_reference, by_standard, is_touched, OPS};

#[test]
fn agrees_with_the_reference_where_untouched() {
    let mut untouched = [0; OPS.len()];
    let mut differ = [0; OPS.len()];
    each_pair(60, |a, b| {
        let (x, y) = (a.vector(), b.vector());
        for (k, op) in OPS.into_iter().enumerate() {
            let is_same = by_standard(op, &x, &y) == by_reference(op, &x, &y);
            match is_touched(op, x.header, y.header) {
                true => differ[k] += usize::from(!is_same),
                false => {
                    assert!(is_same, "{op} of {a:?}, {b:?}");
                    untouched[k] += 1;
                }
            }
        }
    });
    println!("{untouched:?} untouched, {differ:?} that differ");
    assert!(untouched.iter().all(|n| *n > 45_000), "{untouched:?} untouched");
    assert!(differ.iter().all(|n| *n > 20_000), "{differ:?} that differ");
}

//! The deciding place at both ends of a vector, at the edges of words, and behind the end of one of the two.
use crate::evaluator::{Bits, Comparison};
use crate::generator::Draw;
use crate::operand::decides;
use vowherunga::Rule::{AllEqual, KnownMismatch, Unknown};
use vowherunga::{Rule, MAX_WIDTH};
use Comparison::{Equality, Wildcard};

const WIDEST: usize = MAX_WIDTH as usize;

/// Places below a width, lowest first.
fn places(width: usize) -> Vec<usize> {
    let mut all = vec![0, 1, 62, 63, 64, 65, 127, 128];
    all.extend([129, 128, 65, 64, 63, 2, 1].iter().filter_map(|n| width.checked_sub(*n)));
    all.retain(|i| *i < width);
    all.sort();
    all.dedup();
    all
}

fn tells(comparison: Comparison, a: &Bits, b: &Bits, rule: Rule) {
    assert_eq!(decides(comparison, a, b).rule, rule, "{comparison:?}");
}

fn both_tell(a: &Bits, b: &Bits, rule: Rule) {
    tells(Equality, a, b, rule);
    tells(Wildcard, a, b, rule);
}

/// Two equal vectors of known bits, changed so that one place decides.
fn at_each_place(width: usize) {
    let mut draw = Draw::new(width as u64);
    let same = Bits {
        places: (0..width).map(|_| draw.choose(b"01")).collect(),
        is_signed: false,
        is_fill: false,
    };
    both_tell(&same, &same, AllEqual);
    let all = places(width);
    for (k, &i) in all.iter().enumerate() {
        let (lower, higher) = (all[..k].to_vec(), all[k + 1..].to_vec());
        let [mismatch, unknown] = [KnownMismatch, Unknown].map(|rule: fn(u32) -> Rule| rule(i as u32));
        let bit = b"xz"[k % 2];

        let other = same.flipped(i);
        both_tell(&same, &other, mismatch);
        both_tell(&same, &higher.iter().fold(other.clone(), |v, i| v.flipped(*i)), mismatch);
        both_tell(&same.with(bit, lower.clone()), &other, mismatch);
        both_tell(&same.with(bit, higher.clone()), &other, mismatch);
        both_tell(&same, &other.with(bit, lower), mismatch);

        both_tell(&same.with(bit, [i]), &same, unknown);
        both_tell(&same.with(bit, all[k..].to_vec()), &same, unknown);
        tells(Equality, &same, &same.with(bit, [i]), unknown);
        tells(Wildcard, &same, &same.with(bit, [i]), AllEqual);
        tells(Equality, &same.with(bit, higher.clone()), &same.with(bit, [i]), unknown);
        tells(Wildcard, &same.with(bit, [i]), &same.with(bit, [i]), AllEqual);

        // not compared below the place
        let masked = same.with(bit, 0..i);
        both_tell(&same, &masked.flipped(i), mismatch);
        tells(Wildcard, &same.with(bit, [0, i]), &masked, unknown);
        tells(Wildcard, &same.with(bit, 0..=i), &masked, unknown);
        tells(Equality, &same.with(bit, [i]), &masked, Unknown(0));
    }
}

#[test]
fn of_one_word() {
    at_each_place(64);
}

#[test]
fn of_two_words() {
    at_each_place(65);
}

#[test]
fn of_the_widest() {
    at_each_place(WIDEST);
}

/// 3 bits beside the widest vector.
#[test]
fn behind_the_end() {
    let wide = Bits::new(&("1".repeat(WIDEST - 2) + "01")).signed();
    let short = Bits::new("101").signed();
    let zeros = Bits::new(&("0".repeat(WIDEST - 3) + "101"));
    let ones = Bits::new(&"1".repeat(WIDEST));
    both_tell(&short, &wide, AllEqual);
    both_tell(&wide, &short, AllEqual);
    both_tell(&Bits::new("101"), &wide, KnownMismatch(3));
    both_tell(&Bits::new("101"), &zeros, AllEqual);
    both_tell(&Bits::new("1").fill(), &ones, AllEqual);
    for i in places(WIDEST).into_iter().filter(|i| *i >= 3) {
        let [mismatch, unknown] = [KnownMismatch, Unknown].map(|rule: fn(u32) -> Rule| rule(i as u32));

        // extended by a known bit
        both_tell(&short, &wide.flipped(i), mismatch);
        both_tell(&wide.flipped(i), &short, mismatch);
        both_tell(&short.with(b'x', [1]), &wide.flipped(i), mismatch);
        both_tell(&wide.with(b'z', [i]), &short, unknown);
        tells(Equality, &short, &wide.with(b'z', [i]), unknown);
        tells(Wildcard, &short, &wide.with(b'z', [i]), AllEqual);
        both_tell(&Bits::new("101"), &zeros.flipped(i), mismatch);

        // by an unknown one: an equality tells the top bit, a wildcard equality the lowest place that it compares
        let top = short.with(b'x', [2]);
        tells(Equality, &top, &wide.with(b'z', 2..i), Unknown(2));
        tells(Wildcard, &top, &wide.with(b'z', 2..i), unknown);
        tells(Wildcard, &wide.flipped(i), &top, AllEqual);

        // fills
        both_tell(&Bits::new("z01").fill(), &ones.flipped(i), mismatch);
        both_tell(&ones.with(b'x', [i]), &Bits::new("1").fill(), unknown);
        tells(Wildcard, &Bits::new("x").fill(), &ones.with(b'x', 0..i), unknown);
    }
}

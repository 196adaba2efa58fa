//! Not and truth by words and bit by bit refuse alike: as the table says, and what is drawn.
use crate::operators::{answers, refuses, Entry};
use crate::table::{fills_and_reals, vectors, Input};
use vowherunga::planes::word_count;
use vowherunga::reference::bit_by_bit;
use vowherunga::reference::draw::Rng;
use vowherunga::{bitwise, reduce, Operand, MAX_WIDTH};

const BY_WORDS: [(&str, Entry); 2] = [
    ("not", Entry::Not(bitwise::bitwise_not)),
    ("truth", Entry::Truth(reduce::is_nonzero)),
];

const BY_BITS: [(&str, Entry); 2] = [
    ("not bit by bit", Entry::Not(bit_by_bit::bitwise_not)),
    (
        "truth bit by bit",
        Entry::Check(|a, value, unknown| bit_by_bit::is_nonzero(a, value, unknown).map(drop)),
    ),
];

/// The binding's forms are run over the table with the other operators.
#[test]
fn of_forms_bit_by_bit() {
    let mut refused = [0; 5];
    for (name, entry) in &BY_BITS {
        for input in vectors().into_iter().chain(fills_and_reals()).filter(|i| i.header().is_some()) {
            refused[usize::from(input.operators)] += refuses(name, entry, &[&input]);
        }
    }
    assert!(refused.iter().all(|n| *n >= 7), "{refused:?} by number");
}

/// A vector of a width and the lengths of two output planes, with up to two faults.
fn draw(rng: &mut Rng, width: u32) -> (Input, [usize; 2]) {
    let v = rng.operand(width);
    let (mut header, mut planes) = (v.header, [v.value, v.unknown]);
    let mut lengths = [word_count(width); 2];
    for _ in 0..rng.below(3) {
        let k = rng.below(2) as usize;
        match rng.below(5) {
            0 => header.width = rng.choose(&[MAX_WIDTH + 1, u32::MAX]),
            1 => {
                let words = planes[k].len();
                planes[k].resize(rng.choose(&[0, words.saturating_sub(1), words + 1]), 0);
            }
            // The top place of the last word, which lies above most widths.
            2 => planes[k].iter_mut().last().into_iter().for_each(|word| *word |= 1 << 63),
            // A fill is at fault if it is empty.
            3 => header.is_fill = true,
            _ => lengths[k] = rng.choose(&[0, lengths[k].saturating_sub(1), lengths[k] + 1]),
        }
    }
    let [value, unknown] = planes;
    let words = word_count(header.width);
    let is_above = |plane: &[u64]| (header.width as usize..words * 64).any(|i| plane[i / 64] >> (i % 64) & 1 == 1);
    let operators = if header.width > MAX_WIDTH {
        1
    } else if value.len() != words || unknown.len() != words {
        2
    } else if is_above(&value) || is_above(&unknown) {
        3
    } else if header.is_fill && header.width == 0 {
        4
    } else {
        0
    };
    let input = Input {
        operand: Operand::Vector(header),
        value,
        unknown,
        mask_top: 0,
        planes: 0,
        operators,
    };
    (input, lengths)
}

#[test]
fn of_drawn_faults() {
    let mut rng = Rng::new(55);
    let mut refused = [0; 6];
    for width in (0..=130).chain([4095, 4096, 4097, MAX_WIDTH - 1, MAX_WIDTH]) {
        for _ in 0..if width == 0 { 1_000 } else { 50 } {
            let (input, lengths) = draw(&mut rng, width);
            let words = word_count(width);
            let with_outputs = match input.operators {
                0 if lengths != [words; 2] => 5,
                n => n,
            };
            for (name, entry) in BY_WORDS.iter().chain(&BY_BITS) {
                let want = if entry.writes() { with_outputs } else { input.operators };
                answers(name, entry, &[&input], lengths, want);
            }
            refused[usize::from(with_outputs)] += 1;
        }
    }
    println!("{refused:?} by number");
    assert!(refused.iter().all(|n| *n >= 100), "{refused:?} by number");
}

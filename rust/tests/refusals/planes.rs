//! The entries of `planes`, the insert, which writes in place as they do, the constructors, and real to vector.
use crate::lent::Lent;
use crate::number;
use crate::table::{fills_and_reals, vectors, Input};
use vowherunga::{bitwise, planes, real, value, Header, LogicBit, Narrow, Refusal, Word, MAX_WIDTH};

const ONES: Word = Word {
    value: u64::MAX,
    unknown: u64::MAX,
};

/// Lends copies of an input's planes to a call, and sees that a refused one writes nothing.
fn refuses(input: &Input, want: u8, call: impl FnOnce(&mut [u64], &mut [u64]) -> u8) {
    let (mut value, mut unknown) = (Lent::new(&input.value), Lent::new(&input.unknown));
    let got = call(value.plane(), unknown.plane());
    let (value, unknown) = (value.left(), unknown.left());
    assert_eq!(got, want, "{:?} with {} and {} words", input.operand, value.len(), unknown.len());
    if want != 0 {
        assert!(value == input.value && unknown == input.unknown, "a refused call wrote");
    }
}

#[test]
fn of_planes() {
    for input in vectors() {
        let w = input.header().unwrap().width;
        refuses(&input, input.planes, |v, u| number(planes::get(w, v, u, 0)));
        refuses(&input, input.planes, |v, u| number(planes::extract64(w, v, u, 0, 64)));
        for i in [0, usize::MAX] {
            refuses(&input, input.planes, |v, u| number(planes::set(w, v, u, i, LogicBit::Z)));
            refuses(&input, input.planes, |v, u| number(planes::splice64(w, v, u, i, ONES, 64)));
        }
        refuses(&input, input.mask_top, |v, u| number(planes::mask_top(w, v, u)));
    }
}

#[test]
fn of_splice_bits64() {
    for input in vectors().into_iter().chain(fills_and_reals()) {
        let Some(header) = input.header() else { continue };
        for pos in [0, usize::MAX] {
            for n in [0, 64] {
                refuses(&input, input.operators, |v, u| {
                    number(bitwise::splice_bits64(header, v, u, pos, ONES, n))
                });
            }
        }
    }
}

/// A vector that is held by value is checked as planes of one word.
#[test]
fn of_narrow() {
    let mut refused = [0; 5];
    for input in vectors().into_iter().chain(fills_and_reals()) {
        if let (Some(header), [value], [unknown]) = (input.header(), &input.value[..], &input.unknown[..]) {
            let got = number(Narrow::new(header, *value, *unknown));
            assert_eq!(got, input.operators, "{header:?}");
            refused[usize::from(got)] += 1;
        }
    }
    assert!(refused.iter().all(|n| *n > 0), "{refused:?} by number");
}

type Maker = fn(u32, &mut [u64], &mut [u64]) -> Result<Header, Refusal>;
const CONSTRUCTORS: [Maker; 3] = [value::new, value::zero, |w, v, u| value::from_u64(u64::MAX, w, v, u)];
const FROM_REAL: [Maker; 2] = [
    |w, v, u| real::from_real_wrapped(-1.0, w, v, u),
    |w, v, u| real::from_real_wrapped(f64::NAN, w, v, u),
];

/// Output planes of these lengths are refused by a number at the width, and stay as they were.
fn refuses_output(calls: &[Maker], width: u32, [value, unknown]: [usize; 2], want: u8) {
    for call in calls {
        let stood = 0x0123_4567_89ab_cdef;
        let (mut v, mut u) = (Lent::new(&vec![stood; value]), Lent::new(&vec![stood; unknown]));
        let got = number(call(width, v.plane(), u.plane()));
        assert_eq!(got, want, "width {width} with {value} and {unknown} words");
        assert!(
            v.left().into_iter().chain(u.left()).all(|word| word == stood),
            "a refused call wrote"
        );
    }
}

/// Lengths of two output planes that are not both `words`.
pub fn wrong_lengths(words: usize) -> [[usize; 2]; 5] {
    [
        [words - 1, words],
        [words, words - 1],
        [words + 1, words],
        [words, words + 1],
        [0, 0],
    ]
}

#[test]
fn of_outputs() {
    for (width, words) in [(0, 1), (1, 1), (64, 1), (65, 2), (MAX_WIDTH, 16_384)] {
        for lengths in wrong_lengths(words) {
            refuses_output(&CONSTRUCTORS, width, lengths, 5);
            refuses_output(&FROM_REAL, width, lengths, 5);
        }
    }
}

#[test]
fn of_widths_above_the_limit() {
    for width in [MAX_WIDTH + 1, u32::MAX] {
        for lengths in wrong_lengths(16_384) {
            // a constructor clamps
            refuses_output(&CONSTRUCTORS, width, lengths, 5);
            refuses_output(&FROM_REAL, width, lengths, 1);
        }
        refuses_output(&FROM_REAL, width, [16_384, 16_384], 1);
    }
}

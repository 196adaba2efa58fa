//! Bits, vectors, ops and refusals as text: what is written is read again, and a text that is none of them is refused and writes nothing.
#[path = "lent/mod.rs"]
mod lent;

use lent::Lent;
use vowherunga::planes::{self, word_count};
use vowherunga::steps::Op;
use vowherunga::{value, Header, LogicBit, Narrow, ParseError, PlanesMut, Refusal, VectorRef, MAX_WIDTH};

/// The characters of a bit, and others that look much alike or have several bytes.
const BITS: [char; 4] = ['0', '1', 'x', 'z'];
const NO_BITS: [char; 12] = ['2', 'X', 'Z', 'o', 'l', '_', ' ', '\n', '\0', '\u{660}', '\u{445}', '\u{1d7ce}'];

#[test]
fn bits() {
    for (bit, char) in LogicBit::ALL.into_iter().zip(BITS) {
        assert_eq!(
            (bit.to_char(), bit.to_string(), format!("{bit:>3}")),
            (char, char.to_string(), format!("  {char}"))
        );
        assert_eq!((LogicBit::try_from(char), char.to_string().parse()), (Ok(bit), Ok(bit)));
    }
    for found in (char::MIN..char::MAX).filter(|c| !BITS.contains(c)) {
        assert_eq!(LogicBit::try_from(found), Err(ParseError::NotABit { found, at: 0 }));
    }
    assert_eq!("X".parse::<LogicBit>(), Err(ParseError::NotABit { found: 'X', at: 0 }));
    for text in ["", "00", "x ", "01xz"] {
        assert_eq!(text.parse::<LogicBit>(), Err(ParseError::NotOneBit), "{text:?}");
    }
}

/// A code is an op's for good.
#[test]
fn ops() {
    let names = [
        "and", "or", "xor", "not", "mrg", "rand", "ror", "rxor", "eq", "ceq", "cz", "cx", "weq", "land", "lor", "sel", "ins",
    ];
    for code in 0..=u8::MAX {
        let op = Op::from_code(code);
        assert_eq!(op.map(Op::code), (code < 17).then_some(code));
        assert_eq!(op.map(Op::name), names.get(usize::from(code)).copied());
    }
    for (op, name) in Op::ALL.into_iter().zip(names) {
        assert_eq!((op.to_string(), name.parse()), (name.to_string(), Ok(op)));
    }
    for name in ["", "And", "and ", "an", "nd", "merge"] {
        assert_eq!(name.parse::<Op>(), Err(ParseError::NotAnOp), "{name:?}");
    }
}

#[test]
fn refusals() {
    for refusal in Refusal::ALL {
        let text = refusal.to_string();
        let reason = text.strip_prefix(&format!("refused by {}: ", refusal.number())).unwrap();
        assert!(reason.contains(' ') && !reason.contains(&format!("{refusal:?}")), "{text}");
        assert_eq!(ParseError::from(refusal).to_string(), text);
    }
    let told = [
        "the width is above",
        "words of its width",
        "a bit is set",
        "fill has width 0",
        "output plane",
        "step list",
        "arms",
        "names a cell",
        "cells of the store are filled",
        "too few words",
        "arenas differ",
        "sized literal",
    ];
    for (refusal, words) in Refusal::ALL.into_iter().zip(told) {
        let of = Refusal::ALL.into_iter().filter(|r| r.to_string().contains(words));
        assert_eq!(of.collect::<Vec<_>>(), [refusal], "{words}");
    }
}

/// Texts of a width in which each bit stands beside each other one, and at each place.
fn texts(width: usize) -> Vec<String> {
    let bit = |k: usize, i: usize| BITS[(k + i * (1 + k / 4) + i / 5) % 4];
    (0..16).map(|k| (0..width).map(|i| bit(k, i)).collect()).collect()
}

/// Planes of words that no parse leaves.
fn stood(words: usize) -> [Lent; 2] {
    [
        Lent::new(&vec![0x0123_4567_89ab_cdef; words]),
        Lent::new(&vec![0xfedc_ba98_7654_3210; words]),
    ]
}

#[test]
fn vectors() {
    for width in 0..=130 {
        for text in texts(width) {
            let mut planes = stood(word_count(width as u32));
            let [value, unknown] = &mut planes;
            let v = PlanesMut {
                value: value.plane(),
                unknown: unknown.plane(),
            };
            let v = v.parse(&text).unwrap();
            let header = Header {
                width: width as u32,
                is_signed: false,
                is_fill: false,
            };
            assert_eq!((v.header, v.to_string()), (header, text.clone()));
            for (i, char) in text.chars().rev().enumerate() {
                assert_eq!(
                    planes::get(v.header.width, v.value, v.unknown, i).unwrap().to_char(),
                    char,
                    "bit {i} of {text}"
                );
            }
            if width <= 64 {
                assert_eq!(Narrow::new(header, v.value[0], v.unknown[0]).unwrap().to_string(), text);
            }
            planes.into_iter().for_each(|plane| drop(plane.left()));
        }
    }
}

/// A text is refused and the planes stay.
fn refuses(text: &str, words: [usize; 2], want: ParseError) {
    let [value, unknown] = words.map(|words| vec![0x0123_4567_89ab_cdef; words]);
    let (mut v, mut u) = (Lent::new(&value), Lent::new(&unknown));
    assert_eq!(value::parse(text, v.plane(), u.plane()), Err(want));
    assert!(v.left() == value && u.left() == unknown, "a refused parse wrote");
}

#[test]
fn no_vectors() {
    for width in [1, 2, 63, 64, 65, 130] {
        let words = word_count(width as u32);
        for at in 0..width {
            for found in NO_BITS {
                let mut chars: Vec<char> = texts(width)[at % 16].chars().collect();
                chars[at] = found;
                let text: String = chars.iter().collect();
                refuses(&text, [words; 2], ParseError::NotABit { found, at });
                // before the planes are looked at, and before what stands behind
                refuses(&(text + "?"), [0, 3], ParseError::NotABit { found, at });
            }
        }
    }
    for width in [0, 1, 64, 65, 128, 129] {
        let words = word_count(width as u32);
        for lengths in [
            [words - 1, words],
            [words, words - 1],
            [words + 1, words],
            [words, words + 1],
            [0, 0],
        ] {
            refuses(&texts(width)[3], lengths, Refusal::OutputLength.into());
        }
    }
}

#[test]
fn widest_vectors() {
    let widest = MAX_WIDTH as usize;
    let text = texts(widest).swap_remove(7);
    let [mut value, mut unknown] = [vec![0; widest / 64], vec![0; widest / 64]];
    let header = value::parse(&text, &mut value, &mut unknown).unwrap();
    let v = VectorRef {
        header,
        value: &value,
        unknown: &unknown,
    };
    assert!(v.to_string() == text);
    refuses(&(text.clone() + "0"), [widest / 64 + 1; 2], Refusal::TooWide.into());
    refuses(&(text + "0"), [0; 2], Refusal::TooWide.into());
}

/// What is no vector is shown as its refusal.
#[test]
fn no_vector_is_shown() {
    let header = |width: u32, is_fill: bool| Header {
        width,
        is_signed: false,
        is_fill,
    };
    let shown = |header: Header, value: &[u64], unknown: &[u64]| VectorRef { header, value, unknown }.to_string();
    assert_eq!(shown(header(u32::MAX, false), &[], &[]), Refusal::TooWide.to_string());
    assert_eq!(shown(header(65, false), &[0, 0], &[0]), Refusal::PlaneLength.to_string());
    assert_eq!(shown(header(1, false), &[0], &[2]), Refusal::BitAboveWidth.to_string());
    assert_eq!(shown(header(0, true), &[0], &[0]), Refusal::EmptyFill.to_string());
    assert_eq!(shown(header(1, true), &[1], &[0]), "1");
}

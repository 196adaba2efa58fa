//! Literals of every size, base and length are read as the evaluator reads them.
use crate::draw::{Draw, BASES, EDGES};
use crate::evaluator::{self, Literal};
use crate::lent::Lent;
use vowherunga::{literal, Header, Refusal};

impl Literal {
    pub fn header(&self) -> Header {
        Header {
            width: self.width as u32,
            is_signed: self.is_signed,
            is_fill: false,
        }
    }

    /// How many words each plane has.
    pub fn words(&self) -> usize {
        self.width.div_ceil(64)
    }

    /// Value and unknown plane.
    pub fn planes(&self) -> [Vec<u64>; 2] {
        [['1', 'z'], ['x', 'z']].map(|set| {
            let mut plane = vec![0; self.words()];
            for (i, bit) in self.bits.chars().rev().enumerate() {
                plane[i / 64] |= u64::from(set.contains(&bit)) << (i % 64);
            }
            plane
        })
    }
}

/// Lends planes of some lengths, and sees what the library answers: the header and bits, or a refusal, by which no plane changes.
pub fn reads(text: &[u8], lengths: [usize; 2], want: Result<&Literal, Refusal>) {
    let shown = || String::from_utf8_lossy(&text[..text.len().min(200)]).into_owned();
    let stood = lengths.map(|words| vec![0xfedc_ba98_7654_3210; words]);
    let [mut value, mut unknown] = [Lent::new(&stood[0]), Lent::new(&stood[1])];
    let answer = literal::read(text, value.plane(), unknown.plane());
    let planes = [value.left(), unknown.left()];
    assert_eq!(answer, want.map(Literal::header), "{}", shown());
    let left = want.map_or(stood, Literal::planes);
    assert!(planes == left, "{} leaves {planes:x?}", shown());
}

/// Reads a text by the library and by the evaluator; gives whether it is a literal.
pub fn compare(text: &[u8]) -> bool {
    let want = evaluator::literal(text);
    let header = want.as_ref().map(Literal::header).ok_or(Refusal::BadLiteral);
    assert_eq!(literal::header(text), header, "{}", String::from_utf8_lossy(text));
    match &want {
        Some(want) => reads(text, [want.words(); 2], Ok(want)),
        None => reads(text, [1, 2], Err(Refusal::BadLiteral)),
    }
    want.is_some()
}

#[test]
fn each_size_and_base() {
    let mut draw = Draw::new(1);
    for size in 1..=4096 {
        for base in BASES {
            assert!(compare(&draw.literal(size, base)));
        }
    }
}

#[test]
fn at_the_edges() {
    let mut draw = Draw::new(2);
    for size in EDGES {
        for base in BASES {
            for _ in 0..100 {
                assert!(compare(&draw.literal(size, base)));
            }
        }
    }
}

/// Each number of digits from one to beyond the size, with each kind of first digit.
#[test]
fn each_number_of_digits() {
    for size in [1, 2, 3, 4, 7, 31, 32, 63, 64, 65, 66, 127, 128, 129] {
        for base in BASES {
            for count in 1..=150 {
                for first in ["0", "1", "x", "?"] {
                    let text = format!("{size}'{}{first}{}", base as char, "1".repeat(count - 1));
                    let is_decimal_beside_unknown = base == b'd' && count > 1 && ["x", "?"].contains(&first);
                    assert_eq!(compare(text.as_bytes()), !is_decimal_beside_unknown, "{text}");
                }
            }
        }
    }
}

/// A decimal of 100,000 digits, which is read modulo 2 to the size.
#[test]
fn long_decimals() {
    let mut draw = Draw::new(3);
    for size in [1, 64, 65, 4096] {
        let text = [format!("{size}'d").as_bytes(), &draw.some(b"0123456789", 100_000)].concat();
        assert!(compare(&text));
        assert!(!compare(&[&text, &b"x"[..]].concat()));
    }
}

/// Other long texts, and sizes that would wrap.
#[test]
fn long_texts() {
    let mut draw = Draw::new(4);
    let underscores = "_".repeat(100_000);
    for base in ["b", "o", "h"] {
        let digits = String::from_utf8(draw.some(b"01xZ?_", 100_000)).unwrap();
        for size in [1, 64, 65, 4096] {
            assert!(compare(format!("{size}'{base}1{digits}").as_bytes()));
            assert!(!compare(format!("{size}'{base}1{digits}g").as_bytes()));
        }
    }
    assert!(compare(format!("8{underscores}'sd200{underscores}").as_bytes()));
    assert!(compare(format!("1{underscores}2'hx{underscores}5").as_bytes()));
    assert!(!compare(format!("{underscores}8'h1").as_bytes()));
    assert!(!compare(format!("{}'h1", "1".repeat(100_000)).as_bytes()));
    assert!(!compare("1".repeat(100_000).as_bytes()));
    // 8 more than 2 to the 8, 16, 32, 64 and 128, of which only the first is a size
    let wrapping = [
        "264",
        "65544",
        "4294967304",
        "18446744073709551624",
        "340282366920938463463374607431768211464",
    ];
    for size in wrapping {
        assert_eq!(compare(format!("{size}'hff").as_bytes()), size == "264", "{size}");
    }
}

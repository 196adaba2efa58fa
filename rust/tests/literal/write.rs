//! Vectors written as literals: the text, that it is read again, and each refusal, by which the text does not change.
use crate::draw::{Draw, EDGES};
use crate::evaluator::Literal;
use crate::read::reads;
use vowherunga::{literal, Header, Refusal, MAX_WIDTH};

const GUARD: u8 = 0xa5;

/// Lends a text of a length between guard bytes; gives the answer and the text as the call left it.
fn written(h: Header, value: &[u64], unknown: &[u64], length: usize) -> (Result<(), Refusal>, Vec<u8>) {
    let mut lent = vec![GUARD; length + 2];
    let answer = literal::write(h, value, unknown, &mut lent[1..=length]);
    assert_eq!(
        (lent[0], lent[length + 1]),
        (GUARD, GUARD),
        "a byte beside the lent text was written"
    );
    (answer, lent[1..=length].to_vec())
}

/// A call is refused, and the text stays.
fn refuses(h: Header, value: &[u64], unknown: &[u64], length: usize, want: u8) {
    let (answer, text) = written(h, value, unknown, length);
    let shown = || format!("{h:?}, {} and {} words, a text of {length} bytes", value.len(), unknown.len());
    assert_eq!(answer.map_err(Refusal::number), Err(want), "{}", shown());
    assert!(text.iter().all(|byte| *byte == GUARD), "a refused call wrote: {}", shown());
}

fn header(width: u32, is_signed: bool, is_fill: bool) -> Header {
    Header { width, is_signed, is_fill }
}

/// A vector of drawn bits: any, or mostly of one kind.
fn drawn(draw: &mut Draw, width: usize, is_signed: bool) -> Literal {
    let kinds = [&b"01xz"[..], b"01", b"xz", b"0000000x", b"1111111z"];
    let kind = draw.choose(&kinds);
    Literal {
        width,
        is_signed,
        bits: String::from_utf8(draw.some(kind, width)).unwrap(),
    }
}

/// The literal that is to be written.
fn text_of(vector: &Literal) -> String {
    let sign = if vector.is_signed { "s" } else { "" };
    format!("{}'{sign}b{}", vector.width, vector.bits)
}

/// Writes a vector, and reads what was written.
fn goes_round(vector: &Literal) {
    let want = text_of(vector);
    let [value, unknown] = vector.planes();
    assert_eq!(literal::length(vector.header()), Ok(want.len()), "{want}");
    let (answer, text) = written(vector.header(), &value, &unknown, want.len());
    assert_eq!((answer, &text[..]), (Ok(()), want.as_bytes()));
    reads(&text, [vector.words(); 2], Ok(vector));
}

#[test]
fn round_trips() {
    let mut draw = Draw::new(31);
    for width in 1..=4096 {
        for is_signed in [false, true] {
            goes_round(&drawn(&mut draw, width, is_signed));
        }
    }
    for width in EDGES {
        for bit in ["0", "1", "x", "z"] {
            let bits = bit.repeat(width);
            goes_round(&Literal {
                width,
                is_signed: width % 2 == 0,
                bits,
            });
        }
    }
}

#[test]
fn lengths() {
    for width in (0..=5000).chain([MAX_WIDTH - 1, MAX_WIDTH, MAX_WIDTH + 1, u32::MAX]) {
        for is_signed in [false, true] {
            let digits = width.to_string().len();
            let want = match width {
                1..=4096 => Ok(digits + 2 + usize::from(is_signed) + width as usize),
                0..=MAX_WIDTH => Err(Refusal::BadLiteral),
                _ => Err(Refusal::TooWide),
            };
            assert_eq!(literal::length(header(width, is_signed, false)), want, "{width}");
            let want = match width {
                0 => Refusal::EmptyFill,
                1..=MAX_WIDTH => Refusal::BadLiteral,
                _ => Refusal::TooWide,
            };
            assert_eq!(literal::length(header(width, is_signed, true)), Err(want), "a fill of {width}");
        }
    }
}

/// 1 to 4, then 15, then 5: each vector is refused by the first that it breaks, whatever the text's length.
#[test]
fn refusals_of_vectors() {
    let widest = vec![0; 16_384];
    let wide = vec![0; 65];
    for is_signed in [false, true] {
        for length in [0, 1, 4, 5, 8, 11, 4103, 4104] {
            let refuses = |width: u32, is_fill: bool, value: &[u64], unknown: &[u64], want: u8| {
                refuses(header(width, is_signed, is_fill), value, unknown, length, want)
            };
            // 1, before 2, 3 and 15
            refuses(MAX_WIDTH + 1, false, &[0], &[0], 1);
            refuses(u32::MAX, true, &[], &[u64::MAX], 1);
            // 2, before 3, 4 and 15
            refuses(8, false, &[], &[0], 2);
            refuses(8, false, &[0x100], &[0, 0], 2);
            refuses(65, true, &[0], &[0, 0], 2);
            refuses(0, true, &[0, 0], &[0], 2);
            refuses(4097, false, &wide[1..], &wide, 2);
            refuses(MAX_WIDTH, false, &widest, &widest[1..], 2);
            // 3, before 4 and 15
            refuses(8, false, &[0x100], &[0], 3);
            refuses(8, true, &[0], &[0x100], 3);
            refuses(0, true, &[1], &[0], 3);
            refuses(0, false, &[0], &[1], 3);
            refuses(65, false, &[0, 2], &[0, 0], 3);
            refuses(4097, false, &[&wide[1..], &[2]].concat(), &wide, 3);
            // 4
            refuses(0, true, &[0], &[0], 4);
            // 15, before 5: no bit, a fill, too many bits
            refuses(0, false, &[0], &[0], 15);
            refuses(1, true, &[1], &[1], 15);
            refuses(8, true, &[0xff], &[0], 15);
            refuses(4096, true, &wide[1..], &wide[1..], 15);
            refuses(4097, false, &wide, &wide, 15);
            refuses(4097, true, &wide, &wide, 15);
            refuses(MAX_WIDTH, false, &widest, &widest, 15);
        }
    }
}

/// 5: a text of any other length.
#[test]
fn texts_of_other_lengths() {
    let mut draw = Draw::new(32);
    for width in EDGES.into_iter().chain([10, 99, 100, 999, 1000]) {
        for is_signed in [false, true] {
            let vector = drawn(&mut draw, width, is_signed);
            let [value, unknown] = vector.planes();
            let exact = text_of(&vector).len();
            for length in [0, 1, width, exact - 2, exact - 1, exact + 1, exact + 2, 2 * exact] {
                refuses(vector.header(), &value, &unknown, length, 5);
            }
            goes_round(&vector);
        }
    }
}

//! Texts with a fault, and texts of any bytes: read or refused as the evaluator says, and no plane changes where they are refused.
use crate::draw::{Draw, BASES};
use crate::read::compare;

/// Bytes that a literal is made of, and some that look much alike.
const BYTES: &[u8] = b"0123456789abcdefghosxzABCDEFGHOSXZ?_''\"`-+., \n\r\t\0\x80\xff";

/// How many texts are literals, and how many are not.
#[derive(Default)]
struct Counts([usize; 2]);

impl Counts {
    fn compare(&mut self, text: &[u8]) {
        self.0[usize::from(!compare(text))] += 1;
    }

    fn expect(&self, least: [usize; 2]) {
        let Counts(counts) = self;
        assert!(counts[0] >= least[0] && counts[1] >= least[1], "{counts:?} literals and others");
    }
}

/// One byte changed, left out, put in, put behind, doubled or exchanged with the one before; or all from some byte on left out.
fn damaged(draw: &mut Draw, text: &[u8]) -> Vec<u8> {
    let mut text = text.to_vec();
    let i = draw.below(text.len());
    match draw.below(7) {
        0 => text[i] = draw.choose(BYTES),
        1 => text[i] = draw.word() as u8,
        2 => drop(text.remove(i)),
        3 => text.insert(i, draw.choose(BYTES)),
        4 => text.insert(i, text[i]),
        5 if i > 0 => text.swap(i - 1, i),
        5 => text.push(draw.choose(BYTES)),
        _ => text.truncate(i),
    }
    text
}

#[test]
fn damaged_literals() {
    let mut draw = Draw::new(11);
    let mut counts = Counts::default();
    for k in 0..60_000 {
        let size = if k % 20 == 0 { draw.size() } else { 1 + draw.below(70) };
        let base = draw.choose(&BASES);
        let text = draw.literal(size, base);
        counts.compare(&damaged(&mut draw, &text));
    }
    counts.expect([15_000, 15_000]);
}

/// Each byte of some literals left out, doubled, and changed for each other byte; each byte put in at each place.
#[test]
fn each_byte_by_each_other() {
    let mut counts = Counts::default();
    for text in ["12'shx_5", "8'b?x01", "1_6'O7z", "9'dX_", "40'D1_234", "4096'h0"] {
        let text = text.as_bytes();
        for i in 0..=text.len() {
            let (before, behind) = text.split_at(i);
            for byte in 0..=u8::MAX {
                counts.compare(&[before, &[byte], behind].concat());
            }
            let Some((first, rest)) = behind.split_first() else { continue };
            counts.compare(&[before, rest].concat());
            counts.compare(&[before, &[*first], behind].concat());
            for byte in 0..=u8::MAX {
                counts.compare(&[before, &[byte], rest].concat());
            }
        }
    }
    counts.expect([900, 20_000]);
}

/// Every text of at most six bytes out of some: so each order of the parts, and each part missing.
#[test]
fn each_short_text() {
    let bytes = b"018'Sbdx_";
    let mut counts = Counts::default();
    for length in 0..=6 {
        for number in 0..bytes.len().pow(length) {
            let text: Vec<u8> = (0..length).map(|k| bytes[number / bytes.len().pow(k) % bytes.len()]).collect();
            counts.compare(&text);
        }
    }
    counts.expect([800, 500_000]);
}

#[test]
fn drawn_bytes() {
    let mut draw = Draw::new(12);
    let mut counts = Counts::default();
    for k in 0..60_000 {
        let length = draw.below(12);
        let text: Vec<u8> = match k % 3 {
            0 => (0..length).map(|_| draw.word() as u8).collect(),
            1 => draw.some(BYTES, length),
            // what begins as a literal does
            _ => [&b"8'"[..], &draw.some(b"sSbodhBODH01_xZ?79aF", length)].concat(),
        };
        counts.compare(&text);
    }
    counts.expect([500, 50_000]);
}

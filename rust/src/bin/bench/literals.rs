//! Literals read into planes that are lent again for each call, and written into a text that is.
use crate::inputs::{output, Input};
use crate::race::{Race, Side};
use std::hint::black_box;
use vowherunga::literal;
use vowherunga::reference::draw::Rng;

/// A literal of drawn digits.
fn reads(rng: &mut Rng, size: u32, base: &str, digits: &[u8], count: usize) -> Side {
    let value: String = (0..count).map(|_| char::from(rng.choose(digits))).collect();
    let text = format!("{size}'{base}{value}");
    let (v, u) = output(size);
    Box::new(move |calls| {
        for _ in 0..calls {
            black_box(literal::read(black_box(text.as_bytes()), v, u)).unwrap();
        }
    })
}

/// A vector of which half the bits are unknown.
fn writes(rng: &mut Rng, width: u32) -> Side {
    let a = Input::random(rng, width, true);
    let mut text = vec![0; literal::length(a.header).unwrap()];
    Box::new(move |calls| {
        for _ in 0..calls {
            let a = black_box(&a);
            black_box(literal::write(a.header, a.value, a.unknown, &mut text)).unwrap();
        }
    })
}

/// What each side does, and the race.
pub fn read_and_written(rng: &mut Rng) -> ([&'static str; 5], Race) {
    let sides = vec![
        reads(rng, 64, "h", b"0123456789abcdef", 16),
        reads(rng, 4096, "b", b"01xz", 4096),
        reads(rng, 4096, "d", b"0123456789", 1233),
        writes(rng, 64),
        writes(rng, 4096),
    ];
    let names = [
        "To read a literal of 64 bits in hex",
        "To read a literal of 4,096 bits in binary",
        "To read a literal of 4,096 bits in decimal, 1,233 digits,",
        "To write a literal of 64 bits",
        "To write a literal of 4,096 bits",
    ];
    (names, Race::new(sides))
}

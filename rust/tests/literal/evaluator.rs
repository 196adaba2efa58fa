//! What a text stands for, from the words of the standard (IEEE 1800-2017, 5.7.1) and of document 02, point 1: by plain string handling, and by
//! schoolbook division for decimals. Nothing here calls the library.
use std::str;

/// A literal's vector; its bits are characters, highest first.
#[derive(Clone, Debug, PartialEq, Eq)]
pub struct Literal {
    pub width: usize,
    pub is_signed: bool,
    pub bits: String,
}

/// The literal that a text is, if it is one.
pub fn literal(text: &[u8]) -> Option<Literal> {
    let (size, rest) = str::from_utf8(text).ok()?.split_once('\'')?;
    let width = width(size)?;
    let rest = rest.to_ascii_lowercase();
    let (is_signed, based) = match rest.strip_prefix('s') {
        Some(based) => (true, based),
        None => (false, &rest[..]),
    };
    let value = run(based.get(1..)?)?;
    let bits = match &based[..1] {
        "b" => bits(&value, 1)?,
        "o" => bits(&value, 3)?,
        "h" => bits(&value, 4)?,
        "d" => decimal_bits(&value, width)?,
        _ => return None,
    };
    Some(Literal {
        width,
        is_signed,
        bits: fitted(&bits, width),
    })
}

/// A run of characters, of which the first is no underscore, without its underscores.
fn run(text: &str) -> Option<String> {
    let begins = !text.is_empty() && !text.starts_with('_');
    begins.then(|| text.replace('_', ""))
}

fn is_number(digits: &str) -> bool {
    digits.bytes().all(|digit| digit.is_ascii_digit())
}

fn width(size: &str) -> Option<usize> {
    let digits = run(size)?;
    // 4,096 has four digits, so a number of more digits that begins with no 0 is larger
    if !is_number(&digits) || digits.starts_with('0') || digits.len() > 4 {
        return None;
    }
    digits.parse().ok().filter(|width| *width <= 4096)
}

/// So many bits for each digit.
fn bits(value: &str, each: usize) -> Option<String> {
    let digit_bits = |digit: char| match digit {
        'x' => Some("x".repeat(each)),
        'z' | '?' => Some("z".repeat(each)),
        _ => digit.to_digit(1 << each).map(|number| format!("{number:0each$b}")),
    };
    value.chars().map(digit_bits).collect()
}

/// A number's lowest bits, as many as the width; or one x or z, which is then extended.
fn decimal_bits(value: &str, width: usize) -> Option<String> {
    match value {
        "x" => Some("x".to_string()),
        "z" | "?" => Some("z".to_string()),
        _ => is_number(value).then(|| lowest_bits(value, width)),
    }
}

/// The bits that are left on the right; or the bits, extended by their first if that is x or z, else by 0.
fn fitted(bits: &str, width: usize) -> String {
    let beyond = if bits.starts_with(['x', 'z']) { &bits[..1] } else { "0" };
    let extended = beyond.repeat(width) + bits;
    extended[extended.len() - width..].to_string()
}

/// The lowest bits of a decimal number, at least so many. It is divided by 2^30 again and again, nine digits at a time from the left; the
/// remainders are its bits, 30 at a time from the right.
fn lowest_bits(number: &str, width: usize) -> String {
    let nine = |digits: &[u8]| str::from_utf8(digits).unwrap().parse().unwrap();
    let mut quotient: Vec<u64> = number.as_bytes().rchunks(9).rev().map(nine).collect();
    let mut bits = Vec::new();
    for _ in 0..width.div_ceil(30) {
        let mut rest = 0;
        for nine in &mut quotient {
            let dividend = rest * 1_000_000_000 + *nine;
            *nine = dividend / (1 << 30);
            rest = dividend % (1 << 30);
        }
        bits.push(format!("{rest:030b}"));
    }
    bits.reverse();
    bits.concat()
}

//! Literals by name, each with the bits that it stands for, and texts that are none. The evaluator is held to them too.
use crate::evaluator::{self, Literal};
use crate::read::reads;
use vowherunga::{literal, Refusal};

/// A literal, and the bits of its vector.
const UNSIGNED: [(&str, &str); 14] = [
    ("8'hzx", "zzzzxxxx"),
    ("8'HZX", "zzzzxxxx"),
    ("8'h?x", "zzzzxxxx"),
    ("12'hx5", "xxxxxxxx0101"),
    ("12'h0x", "00000000xxxx"),
    ("9'hx5", "xxxxx0101"),
    ("3'hx5", "101"),
    ("7'o1z", "0001zzz"),
    ("8'b0x", "0000000x"),
    ("1_6_'hf_f", "0000000011111111"),
    ("4'd17", "0001"),
    ("8'd256", "00000000"),
    ("8'd?_", "zzzzzzzz"),
    ("16'h0xff", "0000xxxx11111111"),
];

const SIGNED: [(&str, &str); 2] = [("8'sb1", "00000001"), ("8'sh8", "00001000")];

const REFUSED: [&str; 28] = [
    "",
    "8'",
    "8'h",
    "8's",
    "8'b2",
    "8'o8",
    "8'hg",
    "8'da",
    "8'h_f",
    "_8'h1",
    "8'_h1",
    "8 'h1",
    "8'h 1",
    "8'h1\n",
    "0'b0",
    "00'b1",
    "08'hff",
    "4097'b0",
    "4_097'b0",
    "-8'd1",
    "8'd-1",
    "8'ssb1",
    "8'bs1",
    "8''b1",
    "8'dxx",
    "8'd1x",
    "8'dx0",
    "4294967304'hff",
];

/// A size or a base is missing.
const UNSIZED: [&str; 6] = ["'hff", "'1", "12", "'b0", "h1", "8"];

fn stands_for(text: &str, is_signed: bool, bits: &str) {
    let want = Literal {
        width: bits.len(),
        is_signed,
        bits: bits.to_string(),
    };
    assert_eq!(evaluator::literal(text.as_bytes()), Some(want.clone()), "{text}");
    assert_eq!(literal::header(text.as_bytes()), Ok(want.header()), "{text}");
    reads(text.as_bytes(), [want.words(); 2], Ok(&want));
}

#[test]
fn accepted() {
    UNSIGNED.iter().for_each(|(text, bits)| stands_for(text, false, bits));
    SIGNED.iter().for_each(|(text, bits)| stands_for(text, true, bits));
    stands_for("65'd18446744073709551616", false, &format!("1{}", "0".repeat(64)));
    stands_for("8'dx_", false, "xxxxxxxx");
    stands_for("4096'b1", false, &format!("{}1", "0".repeat(4095)));
    stands_for("4_096'Sh?", true, &"z".repeat(4096));
}

#[test]
fn refused() {
    for text in REFUSED.into_iter().chain(UNSIZED) {
        assert_eq!(evaluator::literal(text.as_bytes()), None, "{text:?}");
        assert_eq!(literal::header(text.as_bytes()), Err(Refusal::BadLiteral), "{text:?}");
        reads(text.as_bytes(), [1; 2], Err(Refusal::BadLiteral));
    }
}

//! The literals of tests/literals/icarus.txt are read as Icarus Verilog reads them.
use crate::evaluator::{self, Literal};
use crate::read::reads;
use std::{fs, path::Path};

#[test]
fn as_icarus_reads() {
    let path = Path::new(env!("CARGO_MANIFEST_DIR")).join("../tests/literals/icarus.txt");
    let table = fs::read_to_string(path).unwrap();
    let mut lines = 0;
    for line in table.lines() {
        let [text, sign, bits] = line.split(' ').collect::<Vec<_>>()[..] else {
            panic!("no line of the table: {line}")
        };
        let want = Literal {
            width: bits.len(),
            is_signed: sign == "s",
            bits: bits.to_string(),
        };
        assert_eq!(evaluator::literal(text.as_bytes()), Some(want.clone()), "{text}");
        reads(text.as_bytes(), [want.words(); 2], Ok(&want));
        lines += 1;
    }
    assert_eq!(lines, 401);
}

//! The expressions of tests/extension/icarus.txt have the values that Icarus Verilog gives them.
use std::{fs, path::Path};
use vowherunga::planes::word_count;
use vowherunga::{literal, Header, PlanesMut, VectorRef};

/// An operand that owns its planes.
struct Operand {
    header: Header,
    value: Vec<u64>,
    unknown: Vec<u64>,
}

impl Operand {
    /// The operand of a sized literal, or of a fill such as `'1`.
    fn read(text: &str) -> Operand {
        let (width, rest) = text.split_once('\'').unwrap();
        let (sized, is_fill) = match width {
            "" => (format!("1'b{rest}"), true),
            _ => (text.to_string(), false),
        };
        let words = word_count(width.parse().unwrap_or(1));
        let (mut value, mut unknown) = (vec![0; words], vec![0; words]);
        let header = literal::read(sized.as_bytes(), &mut value, &mut unknown).unwrap();
        Operand {
            header: Header { is_fill, ..header },
            value,
            unknown,
        }
    }

    fn by_ref(&self) -> VectorRef<'_> {
        VectorRef {
            header: self.header,
            value: &self.value,
            unknown: &self.unknown,
        }
    }
}

/// The bits of an expression, highest first.
fn bits(a: VectorRef, operator: &str, b: VectorRef) -> String {
    let words = word_count(a.header.width.max(b.header.width));
    let (mut value, mut unknown) = (vec![0; words], vec![0; words]);
    let out = PlanesMut {
        value: &mut value,
        unknown: &mut unknown,
    };
    let result = match operator {
        "&" => a.bitwise_and(b, out),
        "|" => a.bitwise_or(b, out),
        "^" => a.bitwise_xor(b, out),
        "?:" => a.merge_unknown(b, out),
        "==" => return a.is_equal(b).unwrap().to_string(),
        "===" => return a.case_eq(b).unwrap().to_string(),
        "==?" => return a.wildcard_eq(b).unwrap().to_string(),
        _ => panic!("no operator: {operator}"),
    };
    result.unwrap().to_string()
}

#[test]
fn as_icarus_has_them() {
    let path = Path::new(env!("CARGO_MANIFEST_DIR")).join("../tests/extension/icarus.txt");
    let table = fs::read_to_string(path).unwrap();
    for line in table.lines() {
        let [a, operator, b, want] = line.split(' ').collect::<Vec<_>>()[..] else {
            panic!("no line of the table: {line}")
        };
        let (a, b) = (Operand::read(a), Operand::read(b));
        assert_eq!(bits(a.by_ref(), operator, b.by_ref()), want, "{line}");
    }
    assert_eq!(table.lines().count(), 424);
}

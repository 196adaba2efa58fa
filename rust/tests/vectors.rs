//! The methods on vectors by reference: each answers, refuses and writes as the function over planes that it names.
use vowherunga::planes::word_count;
use vowherunga::store::{Store, Stored};
use vowherunga::{bitwise, compare, literal, planes, reduce, value};
use vowherunga::{Header, LogicBit, Operand, OperandRef, PlanesMut, Refusal, VectorMut, VectorRef, Word};

/// A vector that owns its planes.
struct Sample {
    header: Header,
    value: Vec<u64>,
    unknown: Vec<u64>,
}

impl Sample {
    fn by_ref(&self) -> VectorRef<'_> {
        VectorRef {
            header: self.header,
            value: &self.value,
            unknown: &self.unknown,
        }
    }
}

/// Vectors of few bits, of a word, of two and of three, with every mark, and some that are refused.
fn samples() -> Vec<Sample> {
    let texts = ["", "0", "1", "x", "z", "01", "1x", "zx", "01xz", "1010", "xxxx"].map(str::to_string);
    let wide = [64, 65, 129]
        .into_iter()
        .flat_map(|width: usize| ["1", "z", "10", "x01z1"].map(|part| part.repeat(width)[..width].to_string()));
    let mut all = Vec::new();
    for text in texts.into_iter().chain(wide) {
        let words = word_count(text.len() as u32);
        let (mut value, mut unknown) = (vec![0; words], vec![0; words]);
        let header = value::parse(&text, &mut value, &mut unknown).unwrap();
        for (is_signed, is_fill) in [(false, false), (true, false), (false, true), (true, true)] {
            all.push(Sample {
                header: Header {
                    is_signed,
                    is_fill,
                    ..header
                },
                value: value.clone(),
                unknown: unknown.clone(),
            });
        }
    }
    let mut broken = |width: u32, value: &[u64], unknown: &[u64]| {
        all.push(Sample {
            header: Header {
                width,
                ..Header::default()
            },
            value: value.to_vec(),
            unknown: unknown.to_vec(),
        });
    };
    broken(u32::MAX, &[0], &[0]);
    broken(65, &[0, 0], &[0]);
    broken(2, &[0], &[4]);
    all
}

/// What a call leaves of two planes of some length, and its header.
type Left = (Result<Header, Refusal>, [Vec<u64>; 2]);

/// A call on planes by position.
fn by_position(words: usize, call: impl FnOnce(&mut [u64], &mut [u64]) -> Result<Header, Refusal>) -> Left {
    let [mut value, mut unknown] = [vec![7; words], vec![9; words]];
    let answer = call(&mut value, &mut unknown);
    (answer, [value, unknown])
}

/// A call on planes by name, which gives the planes that it wrote as a vector.
fn by_name(words: usize, call: impl for<'o> FnOnce(PlanesMut<'o>) -> Result<VectorRef<'o>, Refusal>) -> Left {
    by_position(words, |value, unknown| {
        let planes = [value.as_ptr(), unknown.as_ptr()];
        let v = call(PlanesMut { value, unknown })?;
        assert_eq!([v.value.as_ptr(), v.unknown.as_ptr()], planes);
        Ok(v.header)
    })
}

#[test]
fn of_one() {
    for s in samples() {
        let (v, Sample { header, value, unknown }) = (s.by_ref(), &s);
        let (header, width) = (*header, header.width);
        assert_eq!(v.check(), value::check_vector(header, value, unknown));
        assert_eq!(v.reduce_and(), reduce::reduce_and(header, value, unknown));
        assert_eq!(v.reduce_or(), reduce::reduce_or(header, value, unknown));
        assert_eq!(v.reduce_xor(), reduce::reduce_xor(header, value, unknown));
        assert_eq!(v.is_nonzero(), reduce::is_nonzero(Operand::Vector(header), value, unknown));
        for i in [0, 1, 3, 63, 64, 128, usize::MAX] {
            assert_eq!(v.get(i), planes::get(width, value, unknown, i));
            for n in [0, 1, 5, 63, 64, 65, usize::MAX] {
                assert_eq!(v.extract64(i, n), planes::extract64(width, value, unknown, i, n));
            }
        }
        for words in [value.len(), value.len() + 1] {
            assert_eq!(
                by_name(words, |out| v.bitwise_not(out)),
                by_position(words, |ov, ou| bitwise::bitwise_not(header, value, unknown, ov, ou))
            );
        }
    }
}

#[test]
fn of_two() {
    let all = samples();
    for (s, t) in all.iter().flat_map(|s| all.iter().map(move |t| (s, t))) {
        let (a, b) = (s.by_ref(), t.by_ref());
        let words = s.value.len().max(t.value.len());
        macro_rules! writes {
            ($($name:ident)*) => { $(assert_eq!(
                by_name(words, |out| a.$name(b, out)),
                by_position(words, |ov, ou| bitwise::$name(a.header, a.value, a.unknown, b.header, b.value, b.unknown, ov, ou)),
                "{a:?} {b:?}"
            );)* };
        }
        writes!(bitwise_and bitwise_or bitwise_xor merge_unknown);
        macro_rules! compares {
            ($($name:ident)*) => { $(assert_eq!(
                a.$name(b),
                compare::$name(a.header, a.value, a.unknown, b.header, b.value, b.unknown),
                "{a:?} {b:?}"
            );)* };
        }
        compares!(case_eq casez_eq casex_eq wildcard_eq decide_wildcard);
        let (x, y) = (Operand::Vector(a.header), Operand::Vector(b.header));
        assert_eq!(a.is_equal(b), compare::is_equal(x, a.value, a.unknown, y, b.value, b.unknown));
        assert_eq!(
            a.decide_equal(b),
            compare::decide_equal(x, a.value, a.unknown, y, b.value, b.unknown)
        );
        assert_eq!(a.logic_and(b), reduce::logic_and(x, a.value, a.unknown, y, b.value, b.unknown));
        assert_eq!(
            a.logic_or(OperandRef::Vector(b)),
            reduce::logic_or(x, a.value, a.unknown, y, b.value, b.unknown)
        );
    }
}

#[test]
fn of_a_real() {
    for s in samples() {
        let (v, x) = (s.by_ref(), Operand::Vector(s.header));
        for f in [0.0, 1.0, -1.0, 10.0, 15.0, f64::NAN] {
            let y = Operand::Real(f);
            assert_eq!(v.is_equal(f), compare::is_equal(x, v.value, v.unknown, y, &[], &[]));
            assert_eq!(v.decide_equal(f), compare::decide_equal(x, v.value, v.unknown, y, &[], &[]));
            assert_eq!(v.logic_and(f), reduce::logic_and(x, v.value, v.unknown, y, &[], &[]));
            assert_eq!(v.logic_or(f), reduce::logic_or(x, v.value, v.unknown, y, &[], &[]));
        }
    }
}

/// A call on a vector in place, by name and by position: the same answer, and the same words afterwards.
fn in_place<A: PartialEq + std::fmt::Debug>(
    s: &Sample,
    by_name: impl FnOnce(&mut VectorMut) -> A,
    by_position: impl FnOnce(&mut [u64], &mut [u64]) -> A,
) {
    let [mut v, mut u] = [s.value.clone(), s.unknown.clone()];
    let [mut value, mut unknown] = [s.value.clone(), s.unknown.clone()];
    let mut vector = VectorMut {
        header: s.header,
        value: &mut value,
        unknown: &mut unknown,
    };
    assert_eq!(by_name(&mut vector), by_position(&mut v, &mut u));
    let left = VectorRef {
        header: s.header,
        value: &v,
        unknown: &u,
    };
    assert_eq!(vector.as_vector(), left);
}

#[test]
fn of_a_vector_in_place() {
    let bits = Word {
        value: 0xf0f0_0000_ffff_1236,
        unknown: 0x8ff0_1111_0ff0_4563,
    };
    for s in samples() {
        for i in [0, 1, 62, 64, usize::MAX] {
            let width = s.header.width;
            for bit in LogicBit::ALL {
                in_place(&s, |v| v.set(i, bit), |v, u| planes::set(width, v, u, i, bit));
            }
            for n in [0, 1, 4, 63, 64, 65] {
                in_place(
                    &s,
                    |v| v.splice_bits64(i, bits, n),
                    |v, u| bitwise::splice_bits64(s.header, v, u, i, bits, n),
                );
            }
        }
    }
}

#[test]
fn as_a_literal() {
    for a in samples() {
        let length = literal::length(a.header).unwrap_or(4);
        for length in [length, length + 1] {
            let [mut by_position, mut by_name] = [(); 2].map(|()| vec![b'?'; length]);
            let want = literal::write(a.header, &a.value, &a.unknown, &mut by_position);
            assert_eq!(a.by_ref().write_literal(&mut by_name), want);
            assert_eq!(by_name, by_position);
        }
    }
    for text in ["8'hzx", "65'sdx", "8'"] {
        for words in [1, 2] {
            let text = text.as_bytes();
            assert_eq!(
                by_name(words, |out| out.read_literal(text)),
                by_position(words, |v, u| literal::read(text, v, u))
            );
        }
    }
}

/// An input by name, and the cell as a vector.
#[test]
fn of_a_store() {
    for s in samples() {
        let [mut value, mut unknown] = [vec![7; 4], vec![9; 4]];
        let [mut v, mut u] = [vec![7; 4], vec![9; 4]];
        let arenas = PlanesMut {
            value: &mut value,
            unknown: &mut unknown,
        };
        let by_name = Store::new().add_vector(s.by_ref(), arenas);
        assert_eq!(by_name, Store::new().add_input(s.header, &s.value, &s.unknown, &mut v, &mut u));
        assert_eq!((&value, &unknown), (&v, &u));
        let Stored { answer: Ok(number), store } = by_name else { continue };
        let cell = store.cell(number).unwrap();
        assert_eq!(cell.vector(&value, &unknown), Some(s.by_ref()));
        let words = s.value.len();
        assert_eq!(cell.vector(&value[..words - 1], &unknown), None);
        assert_eq!(cell.vector(&value, &unknown[..words - 1]), None);
    }
}

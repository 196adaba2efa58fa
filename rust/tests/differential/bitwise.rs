//! The operators whose result is a vector, against the reference's `Value` and, where it is the standard that decides, against that.
use crate::alike::{lend, makes_alike};
use crate::planes::positions;
use crate::samples::{each_pair, each_vector, widths};
use vowherunga::reference::draw::{counts, Rng};
use vowherunga::reference::standard::{expected, is_touched, Shares};
use vowherunga::reference::Vector;
use vowherunga::steps::Op;
use vowherunga::{bitwise, Header, Refusal, Word};

type OfTwo = fn(Header, &[u64], &[u64], Header, &[u64], &[u64], &mut [u64], &mut [u64]) -> Result<Header, Refusal>;

/// An operator of two vectors gives header and planes as expected, over each pair.
fn of_two(seed: u64, ours: OfTwo, op: Op) {
    let mut rng = Rng::new(seed);
    let mut shares = Shares::default();
    let calls = each_pair(seed, |a, b| {
        makes_alike(
            &mut rng,
            || format!("{a:?}, {b:?}"),
            |ov, ou| ours(a.header(), &a.value, &a.unknown, b.header(), &b.value, &b.unknown, ov, ou),
            expected(op, &a.vector(), &b.vector()),
        );
        shares.count(is_touched(op, a.header(), b.header()));
    });
    assert!(calls > 250_000, "{calls} calls");
    shares.expect(op.name());
}

#[test]
fn bitwise_and() {
    of_two(10, bitwise::bitwise_and, Op::And);
}

#[test]
fn bitwise_or() {
    of_two(11, bitwise::bitwise_or, Op::Or);
}

#[test]
fn bitwise_xor() {
    of_two(12, bitwise::bitwise_xor, Op::Xor);
}

#[test]
fn merge_unknown() {
    of_two(13, bitwise::merge_unknown, Op::Merge);
}

#[test]
fn bitwise_not() {
    let mut rng = Rng::new(14);
    let calls = each_vector(14, |a| {
        makes_alike(
            &mut rng,
            || format!("{a:?}"),
            |ov, ou| bitwise::bitwise_not(a.header(), &a.value, &a.unknown, ov, ou),
            a.reference.bitwise_not(),
        );
    });
    assert!(calls > 45_000, "{calls} calls");
}

/// Inserts bits into a vector, and once more into what that leaves: answer and planes as the reference has them. Whether each changed a bit.
fn inserts_alike(v: &Vector, pos: usize, bits: Word, n: usize) -> [bool; 2] {
    let mut ours = v.clone();
    let mut theirs = v.to_value();
    [(), ()].map(|()| {
        let want = theirs.splice_bits64(pos, bits.value, bits.unknown, n);
        let (answer, value, unknown) = lend(&ours, |value, unknown| {
            bitwise::splice_bits64(v.header, value, unknown, pos, bits, n)
        });
        ours = Vector {
            header: v.header,
            value,
            unknown,
        };
        assert_eq!(answer, Ok(want), "{:?} at {pos}: {n} of {bits:x?}", v.header);
        assert!(ours == Vector::from(theirs.clone()), "{:?} at {pos}: {n} of {bits:x?}", v.header);
        want
    })
}

#[test]
fn splice_bits64() {
    let mut rng = Rng::new(15);
    let (mut calls, mut changed) = (0, 0);
    for width in widths() {
        let v = rng.operand(width);
        let end = width as usize;
        let positions = match width {
            0..=4097 => positions(&mut rng, width),
            _ => vec![0, 1, 63, 64, end - 65, end - 64, end - 63, end - 1, end, usize::MAX],
        };
        for pos in positions {
            for n in counts(width, pos) {
                let bits = Word {
                    value: rng.word(),
                    unknown: rng.word(),
                };
                let [first, again] = inserts_alike(&v, pos, bits, n);
                assert!(!again, "a second insert changed a bit");
                calls += 2;
                changed += usize::from(first);
            }
        }
    }
    assert!(
        calls > 250_000 && changed > 80_000,
        "{calls} calls, {changed} of them changed a bit"
    );
}

//! Bits and words of lent planes, against the reference's `WidePlanes`.
use crate::alike::lend;
use crate::samples::widths;
use vowherunga::reference::draw::{counts, Rng};
use vowherunga::reference::value::{LogicBit as ReferenceBit, WidePlanes};
use vowherunga::reference::Vector;
use vowherunga::{planes, LogicBit, Refusal, Word};

/// Every position up to just past a narrow vector, those about the ends of a wide one, some drawn, and those past its planes.
pub fn positions(rng: &mut Rng, width: u32) -> Vec<usize> {
    let (w, end) = (width as usize, planes::word_count(width) * 64);
    let mut all: Vec<usize> = (0..w.min(130) + 3).chain(w.saturating_sub(2)..w + 3).collect();
    all.extend((0..6).map(|_| rng.below(u64::from(width) + 1) as usize));
    all.extend([end - 1, end, end + 1, end + 64, usize::MAX - 64, usize::MAX - 63, usize::MAX]);
    all
}

/// A call that leaves a vector's planes as the reference leaves its own.
fn leaves_alike(v: &Vector, ours: impl FnOnce(&mut [u64], &mut [u64]) -> Result<(), Refusal>, theirs: impl FnOnce(&mut WidePlanes)) {
    let mut want = v.to_planes();
    theirs(&mut want);
    let (answer, value, unknown) = lend(v, ours);
    assert_eq!(answer, Ok(()));
    assert_eq!(value, want.val, "value plane");
    assert_eq!(unknown, want.xz, "unknown plane");
}

#[test]
fn get() {
    let mut rng = Rng::new(1);
    let mut calls = 0;
    for width in widths() {
        let v = rng.vector(width);
        let reference = v.to_planes();
        for i in positions(&mut rng, width) {
            let want = LogicBit::from_code(reference.get(i).to_code());
            assert_eq!(planes::get(width, &v.value, &v.unknown, i), Ok(want), "width {width} i {i}");
            calls += 1;
        }
    }
    assert!(calls > 10_000, "{calls} calls");
}

#[test]
fn set() {
    let mut rng = Rng::new(2);
    let mut calls = 0;
    for width in widths() {
        let v = rng.vector(width);
        for i in positions(&mut rng, width) {
            for bit in LogicBit::ALL {
                let theirs = ReferenceBit::from_code(bit.to_code());
                leaves_alike(
                    &v,
                    |value, unknown| planes::set(width, value, unknown, i, bit),
                    |p| p.set(i, theirs),
                );
                calls += 1;
            }
        }
    }
    assert!(calls > 40_000, "{calls} calls");
}

#[test]
fn splice64() {
    let mut rng = Rng::new(3);
    let mut calls = 0;
    for width in widths() {
        let v = rng.vector(width);
        for pos in positions(&mut rng, width) {
            for n in counts(width, pos) {
                let bits = Word {
                    value: rng.word(),
                    unknown: rng.word(),
                };
                leaves_alike(
                    &v,
                    |value, unknown| planes::splice64(width, value, unknown, pos, bits, n),
                    |p| p.splice64(pos, bits.value, bits.unknown, n),
                );
                calls += 1;
            }
        }
    }
    assert!(calls > 100_000, "{calls} calls");
}

#[test]
fn extract64() {
    let mut rng = Rng::new(4);
    let mut calls = 0;
    for width in widths() {
        let v = rng.vector(width);
        let reference = v.to_planes();
        for pos in positions(&mut rng, width) {
            for n in counts(width, pos) {
                let (value, unknown) = reference.extract64(pos, n);
                let got = planes::extract64(width, &v.value, &v.unknown, pos, n);
                assert_eq!(got, Ok(Word { value, unknown }), "width {width} pos {pos} n {n}");
                calls += 1;
            }
        }
    }
    assert!(calls > 100_000, "{calls} calls");
}

#[test]
fn mask_top() {
    let mut rng = Rng::new(5);
    for width in widths() {
        for _ in 0..20 {
            let v = rng.unmasked(width);
            leaves_alike(&v, |value, unknown| planes::mask_top(width, value, unknown), |p| p.mask_top());
        }
    }
}

//! The exports as C sees them: a place is 0 where the rule has none, and a refused call gives 0 beside its refusal.
use crate::operand::Planes;
use crate::small::vectors;
use vowherunga::raw::{self, DecisionResult};
use vowherunga::{Header, LogicBit};

/// Refusal, bit, rule and place.
type Fields = (u8, u8, u8, u32);

fn fields(r: DecisionResult) -> Fields {
    (r.refusal, r.bit, r.rule, r.place)
}

/// A real as it is passed: its header is of no account.
fn real() -> Planes {
    Planes {
        header: Header {
            width: u32::MAX,
            is_signed: true,
            is_fill: true,
        },
        value: vec![],
        unknown: vec![],
    }
}

fn equal(a: (Option<f64>, &Planes), b: (Option<f64>, &Planes)) -> Fields {
    let [(f, a), (g, b)] = [a, b];
    // A pointer and a length are those of one slice.
    fields(unsafe {
        raw::vowherunga_decide_equal(
            f.is_some(),
            a.header,
            f.unwrap_or(1.0),
            a.value.as_ptr(),
            a.value.len(),
            a.unknown.as_ptr(),
            a.unknown.len(),
            g.is_some(),
            b.header,
            g.unwrap_or(1.0),
            b.value.as_ptr(),
            b.value.len(),
            b.unknown.as_ptr(),
            b.unknown.len(),
        )
    })
}

fn of_vectors(call: raw::OfVectors<DecisionResult>, a: &Planes, b: &Planes) -> Fields {
    // A pointer and a length are those of one slice.
    fields(unsafe {
        call(
            a.header,
            a.value.as_ptr(),
            a.value.len(),
            a.unknown.as_ptr(),
            a.unknown.len(),
            b.header,
            b.value.as_ptr(),
            b.value.len(),
            b.unknown.as_ptr(),
            b.unknown.len(),
        )
    })
}

/// Two vectors, passed as operands, have the answer of their own export.
#[test]
fn two_vectors_as_operands() {
    let all: Vec<Planes> = vectors().iter().map(|v| v.planes()).collect();
    for (a, b) in all.iter().flat_map(|a| all.iter().map(move |b| (a, b))) {
        let got = equal((None, a), (None, b));
        assert_eq!(got, of_vectors(raw::vowherunga_decide_equal_vectors, a, b));
    }
}

#[test]
fn places_where_there_are_none() {
    let all: Vec<Planes> = vectors().iter().map(|v| v.planes()).collect();
    let mut equals = 0;
    for (a, b) in all.iter().flat_map(|a| all.iter().map(move |b| (a, b))) {
        for call in [raw::vowherunga_decide_equal_vectors, raw::vowherunga_decide_wildcard] {
            let (refusal, bit, rule, place) = of_vectors(call, a, b);
            assert!(refusal == 0 && (1..=3).contains(&rule));
            if rule == 3 {
                assert_eq!((bit, place), (LogicBit::One.to_code(), 0));
                equals += 1;
            }
        }
    }
    assert!(equals > 50_000, "{equals} pairs");
    for v in &all {
        for got in [equal((Some(1.0), &real()), (None, v)), equal((None, v), (Some(1.0), &real()))] {
            assert!(matches!(got, (0, 0 | 1, 4, 0)), "{got:?}");
        }
    }
    assert_eq!(equal((Some(1.0), &real()), (Some(1.0), &real())), (0, 1, 4, 0));
    assert_eq!(equal((Some(f64::NAN), &real()), (Some(1.0), &real())), (0, 0, 4, 0));
}

#[test]
fn refused() {
    let vector = |width, is_fill, value: &[u64], unknown: &[u64]| Planes {
        header: Header {
            width,
            is_signed: true,
            is_fill,
        },
        value: value.to_vec(),
        unknown: unknown.to_vec(),
    };
    let good = vector(2, false, &[2], &[1]);
    let bad = [
        (1, vector(u32::MAX, false, &[0], &[0])),
        (2, vector(2, false, &[0], &[0, 0])),
        (3, vector(2, false, &[0], &[4])),
        (4, vector(0, true, &[0], &[0])),
    ];
    for (number, bad) in &bad {
        let refused = (*number, 0, 0, 0);
        for call in [raw::vowherunga_decide_equal_vectors, raw::vowherunga_decide_wildcard] {
            assert_eq!(of_vectors(call, bad, &good), refused);
            assert_eq!(of_vectors(call, &good, bad), refused);
        }
        for other in [(None, &good), (Some(1.0), &real())] {
            assert_eq!(equal((None, bad), other), refused);
            assert_eq!(equal(other, (None, bad)), refused);
        }
    }
    let (f, with_a_plane) = (Some(1.0), vector(0, false, &[0], &[]));
    assert_eq!(equal((f, &with_a_plane), (None, &good)), (2, 0, 0, 0));
    assert_eq!(equal((f, &real()), (f, &with_a_plane)), (2, 0, 0, 0));
}

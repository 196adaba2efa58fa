//! The constructors and real to vector, against the reference's `Value`.
use crate::alike::makes_alike;
use crate::samples::{some_reals, widths};
use vowherunga::reference::draw::Rng;
use vowherunga::reference::value::Value;
use vowherunga::{real, value, MAX_WIDTH};

#[test]
fn constructors() {
    let mut rng = Rng::new(6);
    for width in widths().chain([MAX_WIDTH + 1, MAX_WIDTH + 64, 1 << 30, u32::MAX]) {
        let of = || format!("width {width}");
        makes_alike(&mut rng, of, |v, u| value::new(width, v, u), Value::new(width));
        makes_alike(&mut rng, of, |v, u| value::zero(width, v, u), Value::zero(width));
        for val in [0, 1, u64::MAX, rng.word(), rng.next(), rng.next()] {
            makes_alike(&mut rng, of, |v, u| value::from_u64(val, width, v, u), Value::from_u64(val, width));
        }
    }
}

#[test]
fn from_real_wrapped() {
    let mut rng = Rng::new(7);
    let mut calls = 0;
    for width in widths() {
        let mut reals = some_reals(&mut rng);
        if width <= 4097 {
            reals.extend((0..300).map(|_| rng.real()));
        }
        for f in reals {
            let of = || format!("{f:e}, the bits {:x}, at width {width}", f.to_bits());
            let theirs = Value::from_real_wrapped(f, width);
            makes_alike(&mut rng, of, |v, u| real::from_real_wrapped(f, width, v, u), theirs);
            calls += 1;
        }
    }
    assert!(calls > 60_000, "{calls} calls");
}

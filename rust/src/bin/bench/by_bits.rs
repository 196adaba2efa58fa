//! Not and truth by words and bit by bit, at the widest width, all 0; not also beside a copy of the same planes.
use crate::inputs::{output, Input};
use crate::race::{Race, Side};
use crate::{side, ROUNDS};
use std::hint::black_box;
use vowherunga::reference::bit_by_bit;
use vowherunga::{bitwise, reduce, Header, Operand, Refusal, Truth, MAX_WIDTH};

pub struct ByBits {
    /// Bit by bit, the reference, by words.
    not: Race,
    truth: Race,
    /// A copy of two planes, and not of them by words.
    copy: Race,
}

/// A side that writes two planes, which are lent again for each call.
fn writes(a: Input, call: impl Fn(&Input, &mut [u64], &mut [u64]) + 'static) -> Side {
    let (ov, ou) = output(MAX_WIDTH);
    Box::new(move |calls| {
        for _ in 0..calls {
            call(black_box(&a), ov, ou);
            black_box((&ov, &ou));
        }
    })
}

fn not(a: Input, form: impl Fn(Header, &[u64], &[u64], &mut [u64], &mut [u64]) -> Result<Header, Refusal> + 'static) -> Side {
    writes(a, move |a, ov, ou| {
        black_box(form(a.header, a.value, a.unknown, ov, ou)).unwrap();
    })
}

fn truth(a: Input, form: impl Fn(Header, &[u64], &[u64]) -> Result<Truth, Refusal> + 'static) -> Side {
    side(move || {
        let a = black_box(&a);
        form(a.header, a.value, a.unknown).unwrap()
    })
}

impl ByBits {
    pub fn new() -> ByBits {
        let a = Input::new(MAX_WIDTH, || 0, || 0);
        let copy = writes(a, |a, ov, ou| {
            ov.copy_from_slice(a.value);
            ou.copy_from_slice(a.unknown);
        });
        ByBits {
            not: Race::new(vec![
                not(a, bit_by_bit::bitwise_not),
                side(move || black_box(a.reference).bitwise_not()),
                not(a, bitwise::bitwise_not),
            ]),
            truth: Race::new(vec![
                truth(a, bit_by_bit::is_nonzero),
                side(move || black_box(a.reference).is_nonzero()),
                truth(a, |a, value, unknown| reduce::is_nonzero(Operand::Vector(a), value, unknown)),
            ]),
            copy: Race::new(vec![copy, not(a, bitwise::bitwise_not)]),
        }
    }

    pub fn round(&mut self) {
        self.not.round();
        self.truth.round();
        self.copy.round();
    }

    pub fn print(&self) {
        println!("\n| op | width | input | by words ns | bit by bit ns | ratio | least and largest of {ROUNDS} rounds | reference ns |");
        println!("|---|---|---|---|---|---|---|---|");
        for (op, race) in [("not", &self.not), ("truth", &self.truth)] {
            let r = race.result();
            println!(
                "| {op} | {MAX_WIDTH} | all 0 | {:.1} | {:.1} | {:.4} | {:.4} to {:.4} | {:.1} |",
                r.times[2], r.times[0], r.ratio, r.least, r.largest, r.times[1]
            );
        }
        let r = self.copy.result();
        println!(
            "\n`not` of {MAX_WIDTH} bits takes {:.0} ns; to copy two planes of that width to two others takes {:.0} ns: {:.2} times ({:.2} to {:.2}).",
            r.times[1], r.times[0], r.ratio, r.least, r.largest
        );
    }
}

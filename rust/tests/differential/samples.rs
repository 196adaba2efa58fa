//! Operands in the form of either side, and all those that an operator of one or of two operands is run over.
use std::fmt;
use vowherunga::reference::draw::Rng;
use vowherunga::reference::reals;
use vowherunga::reference::value::Value;
use vowherunga::reference::Vector;
use vowherunga::{Header, Operand, MAX_WIDTH};

/// Widths at the edge of a word, wider ones, and the widest.
pub const EDGES: [u32; 10] = [0, 1, 2, 63, 64, 65, 66, 127, 128, 129];
pub const WIDER: [u32; 6] = [191, 192, 193, 4095, 4096, 4097];
pub const WIDEST: [u32; 2] = [MAX_WIDTH - 1, MAX_WIDTH];

/// Every width up to 130, and the wide ones.
pub fn widths() -> impl Iterator<Item = u32> {
    (0..=130).chain(WIDER).chain(WIDEST)
}

/// An operand, its planes, and the reference's value of it.
pub struct Sample {
    pub operand: Operand,
    pub value: Vec<u64>,
    pub unknown: Vec<u64>,
    pub reference: Value,
}

impl From<Vector> for Sample {
    fn from(v: Vector) -> Sample {
        Sample {
            operand: Operand::Vector(v.header),
            reference: v.to_value(),
            value: v.value,
            unknown: v.unknown,
        }
    }
}

impl From<f64> for Sample {
    fn from(f: f64) -> Sample {
        Sample {
            operand: Operand::Real(f),
            reference: Value::from_f64(f),
            value: Vec::new(),
            unknown: Vec::new(),
        }
    }
}

impl Sample {
    pub fn header(&self) -> Header {
        match self.operand {
            Operand::Vector(header) => header,
            Operand::Real(f) => panic!("the real {f} has no header"),
        }
    }

    pub fn vector(&self) -> Vector {
        Vector {
            header: self.header(),
            value: self.value.clone(),
            unknown: self.unknown.clone(),
        }
    }
}

impl fmt::Debug for Sample {
    /// The operand, and its words while they are few.
    fn fmt(&self, f: &mut fmt::Formatter) -> fmt::Result {
        write!(f, "{:?}", self.operand)?;
        match self.value.len() {
            0..=3 => write!(f, " value {:x?} unknown {:x?}", self.value, self.unknown),
            _ => Ok(()),
        }
    }
}

/// Every vector of at most `widest` bits with every mark. A fill of width 0 is none: the library refuses it, and the reference never ends.
fn small(widest: u32) -> Vec<Sample> {
    let mut all = Vec::new();
    for width in 0..=widest {
        let words = 0..1 << width;
        let planes = words.clone().flat_map(|value| words.clone().map(move |unknown| (value, unknown)));
        for (value, unknown) in planes {
            for (is_signed, is_fill) in [(false, false), (true, false), (false, true), (true, true)] {
                let header = Header { width, is_signed, is_fill };
                if width > 0 || !is_fill {
                    let (value, unknown) = (vec![value], vec![unknown]);
                    all.push(Sample::from(Vector { header, value, unknown }));
                }
            }
        }
    }
    all
}

/// Hands to a check every vector of at most 6 bits with every mark, and drawn ones of each width. Gives their number.
pub fn each_vector(seed: u64, mut check: impl FnMut(&Sample)) -> usize {
    let small = small(6);
    small.iter().for_each(&mut check);
    let mut calls = small.len();
    let mut rng = Rng::new(seed);
    for width in widths() {
        let draws = match width {
            0..=130 => 200,
            131..=4097 => 50,
            _ => 12,
        };
        for _ in 0..draws {
            check(&rng.operand(width).into());
            calls += 1;
        }
    }
    calls
}

/// The widths of drawn pairs, and how many are drawn of each.
fn widths_of_pairs() -> Vec<(u32, u32, usize)> {
    let mut all = Vec::new();
    for a in 0..=130 {
        all.extend((0..=130).map(|b| (a, b, 8)));
    }
    for wide in WIDER {
        all.extend(EDGES.into_iter().flat_map(|edge| [(wide, edge, 6), (edge, wide, 6)]));
        all.extend(WIDER.map(|other| (wide, other, 6)));
    }
    for widest in WIDEST {
        all.extend([(widest, 1, 2), (64, widest, 2), (widest, 4097, 2)]);
        all.extend(WIDEST.map(|other| (widest, other, 4)));
    }
    all
}

/// Hands to a check every pair of vectors of at most 3 bits with every mark, and drawn pairs of every two widths up to 130 and of wide ones;
/// in half of these the right one is much like the left, and in every second both are signed and no fills. Gives the number of pairs.
pub fn each_pair(seed: u64, mut check: impl FnMut(&Sample, &Sample)) -> usize {
    let small = small(3);
    small.iter().for_each(|a| small.iter().for_each(|b| check(a, b)));
    let mut calls = small.len() * small.len();
    let mut rng = Rng::new(seed);
    for (wa, wb, draws) in widths_of_pairs() {
        for k in 0..draws {
            let mut a = rng.operand(wa);
            let mut b = if rng.below(2) == 0 { rng.operand(wb) } else { rng.like(&a, wb) };
            if k % 2 == 1 {
                a.make_signed();
                b.make_signed();
            }
            check(&a.into(), &b.into());
            calls += 1;
        }
    }
    calls
}

/// Special reals and some drawn ones.
pub fn some_reals(rng: &mut Rng) -> Vec<f64> {
    let mut all = reals::special();
    all.extend((0..60).map(|_| rng.real()));
    all
}

/// Hands to a check pairs with a real on one side or on both: beside it every vector of at most 3 bits with every mark, every real, and
/// vectors of each width that lie near it.
pub fn each_pair_with_a_real(seed: u64, mut check: impl FnMut(&Sample, &Sample)) {
    let mut rng = Rng::new(seed);
    let reals = some_reals(&mut rng);
    let small = small(3);
    for f in &reals {
        let real = Sample::from(*f);
        for v in &small {
            check(&real, v);
            check(v, &real);
        }
        reals.iter().for_each(|other| check(&real, &Sample::from(*other)));
        for width in (0..=130).chain(WIDER) {
            let v = Sample::from(rng.near(*f, width));
            check(&real, &v);
            check(&v, &real);
        }
    }
    for widest in WIDEST {
        let (f, v) = (rng.real(), Sample::from(rng.operand(widest)));
        check(&Sample::from(f), &v);
        check(&v, &Sample::from(f));
    }
}

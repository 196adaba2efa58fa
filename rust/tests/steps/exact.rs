//! A bit of a step's result is known as b exactly where all completions of the operands give b: worked out by trying them all.
use crate::alike::{Left, Runs};
use crate::draws::Draws;
use vowherunga::reference::draw::low_bits;
use vowherunga::reference::steps::{keeps_known, Shape};
use vowherunga::steps::{Op, Step};

/// A cell of at most 64 bits.
#[derive(Clone, Copy)]
struct Small {
    width: usize,
    is_signed: bool,
    is_fill: bool,
    value: u64,
    unknown: u64,
}

/// A cell that a run left.
fn small(left: &Left, number: usize) -> Small {
    let cell = left.store.cell(number).unwrap();
    let [value, unknown] = left.memory.arenas.each_ref().map(|arena| arena[cell.start]);
    Small {
        width: cell.header.width as usize,
        is_signed: cell.header.is_signed,
        is_fill: cell.header.is_fill,
        value,
        unknown,
    }
}

impl Small {
    /// The numbers that it can be: each unknown bit made 0 or 1.
    fn completions(self) -> Vec<u64> {
        let known = self.value & !self.unknown;
        let mut all = vec![known];
        let mut chosen = self.unknown;
        while chosen != 0 {
            all.push(known | chosen);
            chosen = (chosen - 1) & self.unknown;
        }
        all
    }

    /// Whether both are signed, as no fill is.
    fn is_signed_beside(self, other: Small) -> bool {
        [self, other].iter().all(|v| v.is_signed && !v.is_fill)
    }

    /// A number that it can be, as and, or, xor and merge read it beside another: a fill is stretched, and a shorter one is extended by its top
    /// bit if both are signed.
    fn beside(self, other: Small, n: u64) -> u64 {
        let larger = low_bits(self.width.max(other.width));
        let is_negative = self.width > 0 && n >> (self.width - 1) == 1;
        match self.is_fill {
            true => n % 2 * larger,
            false if self.is_signed_beside(other) && is_negative => n | larger & !low_bits(self.width),
            false => n,
        }
    }

    /// Whether an equality with another is known exactly.
    fn is_comparable(self, other: Small) -> bool {
        !self.is_fill && !other.is_fill && (self.width == other.width || !self.is_signed || !other.is_signed)
    }
}

/// What an op has on numbers that its operands can be; a merge has either of its operands as it reads them.
fn of_numbers(op: Op, operands: [Small; 3], n: [u64; 3], position: u32) -> Vec<u64> {
    let width = operands.map(|v| v.width);
    let [a, b, _] = operands;
    let [x, y] = [a.beside(b, n[0]), b.beside(a, n[1])];
    let one = |answer: bool| u64::from(answer);
    vec![match op {
        Op::And => x & y,
        Op::Or => x | y,
        Op::Xor => x ^ y,
        Op::Not => !n[0],
        Op::Merge => return vec![x, y],
        Op::ReduceAnd => one(n[0] == low_bits(width[0])),
        Op::ReduceOr => one(n[0] != 0),
        Op::ReduceXor => one(n[0].count_ones() % 2 == 1),
        Op::Equal => one(n[0] == n[1]),
        Op::LogicAnd => one(n[0] != 0 && n[1] != 0),
        Op::LogicOr => one(n[0] != 0 || n[1] != 0),
        Op::Select => n[if n[0] != 0 { 1 } else { 2 }],
        Op::Insert if position < 64 => n[0] & !(low_bits(width[1]) << position) | n[1] << position,
        Op::Insert => n[0],
        op => panic!("{op} is not exact"),
    }]
}

/// The bits that are 1, and those that are 0, in whatever the completions of a step's operands give.
fn agreed(step: Step, operands: [Small; 3]) -> [u64; 2] {
    let [a, b, c] = operands.map(Small::completions);
    let mut agreed = [u64::MAX; 2];
    for x in &a {
        for y in &b {
            for z in &c {
                for given in of_numbers(step.op, operands, [*x, *y, *z], step.c) {
                    agreed = [agreed[0] & given, agreed[1] & !given];
                }
            }
        }
    }
    agreed
}

#[test]
fn known_exactly_where_completions_agree() {
    let mut draws = Draws::new(6_000, 55);
    let mut runs = Runs::new();
    let mut steps = [0; 17];
    let (mut with_fills, mut of_two_widths, mut extended) = (0, 0, [0; 17]);
    for _ in 0..draws.count {
        let rng = &mut draws.rng;
        let shape = Shape::short(rng).keeping_known();
        let drawn = rng.list(&shape);
        let memory = rng.memory([drawn.words; 2], [1; 2]);
        let left = runs.run(drawn.list.text().as_bytes(), &memory);
        let ran = left.store.count() - drawn.list.inputs.len();
        for (k, step) in drawn.list.steps.iter().take(ran).enumerate() {
            let nothing = Small {
                width: 0,
                is_signed: false,
                is_fill: false,
                value: 0,
                unknown: 0,
            };
            let used = vowherunga::reference::steps::operands(step.op) - usize::from(step.op == Op::Insert);
            let named = [step.a, step.b, step.c];
            let operands = [0, 1, 2].map(|i| if i < used { small(&left, named[i] as usize) } else { nothing });
            if step.op == Op::Equal && !operands[0].is_comparable(operands[1]) {
                continue;
            }
            let got = small(&left, drawn.list.inputs.len() + k);
            let is = [got.value & !got.unknown, !got.value & !got.unknown].map(|bits| bits & low_bits(got.width));
            let want = agreed(*step, operands).map(|bits| bits & low_bits(got.width));
            assert_eq!(is, want, "the known ones and zeros of step {} of\n{}", k + 1, drawn.list.text());
            steps[usize::from(step.op.code())] += 1;
            with_fills += usize::from(operands.iter().any(|v| v.is_fill));
            let [a, b, _] = operands;
            of_two_widths += usize::from(step.op == Op::Equal && a.width != b.width);
            extended[usize::from(step.op.code())] += usize::from(a.is_signed_beside(b) && a.width != b.width);
        }
    }
    runs.expect(&draws.endings([("done", 5_900)]));
    assert!(with_fills > draws.share(1_000), "{with_fills} steps on fills");
    assert!(of_two_widths > draws.share(100), "{of_two_widths} equalities of two widths");
    println!("{extended:?} steps on signed operands of two widths");
    for op in [Op::And, Op::Or, Op::Xor, Op::Merge] {
        let n = extended[usize::from(op.code())];
        assert!(n > draws.share(400), "{n} steps {op} on signed operands of two widths");
    }
    for op in Op::ALL {
        assert!(
            !keeps_known(op) || steps[usize::from(op.code())] > draws.share(500),
            "{steps:?} steps"
        );
    }
}

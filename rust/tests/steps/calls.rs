//! The calls of the store, one after the other, on both sides: wider vectors and more kinds than a list can have.
use crate::alike::{lend, store_of};
use crate::draws::Draws;
use crate::shares::StepShares;
use vowherunga::reference::draw::Rng;
use vowherunga::reference::steps::{operands, Machine, Shape};
use vowherunga::reference::Vector;
use vowherunga::steps::{Op, Step};
use vowherunga::store::{Store, Stored};
use vowherunga::MAX_WIDTH;

/// A store and the machine that it is held to.
struct Pair {
    store: Store,
    machine: Machine,
}

impl Pair {
    /// A call on both sides: answer, store and every word of memory are alike. The number that refused it, or 0.
    fn call(
        self,
        ours: impl FnOnce(Store, [&mut [u64]; 4]) -> Stored,
        theirs: impl FnOnce(&mut Machine) -> Result<(), u8>,
        of: impl Fn() -> String,
    ) -> (Pair, u8) {
        let Pair { store, mut machine } = self;
        let memory = machine.memory.clone();
        let answer = theirs(&mut machine);
        let (Stored { answer: got, store }, left) = lend(&memory, |planes| ours(store, planes));
        let added = machine.cells.len().wrapping_sub(1);
        assert_eq!(got.map_err(|r| r.number()), answer.map(|()| added), "{}", of());
        assert!(store == store_of(&machine), "another store after {}", of());
        assert!(left == machine.memory, "other words in memory after {}", of());
        (Pair { store, machine }, answer.err().unwrap_or(0))
    }

    fn input(self, v: &Vector) -> (Pair, u8) {
        self.call(
            |store, [av, au, _, _]| store.add_input(v.header, &v.value, &v.unknown, av, au),
            |machine| machine.add_input(v),
            || format!("an input {:?}", v.header),
        )
    }

    fn step(self, step: Step) -> (Pair, u8) {
        self.call(
            |store, [av, au, sv, su]| store.add_step(step, av, au, sv, su),
            |machine| machine.add_step(step),
            || format!("{step:?}"),
        )
    }
}

/// Widths of a store's inputs: few bits, edges, more than a list can have.
const WIDTHS: [u32; 16] = [0, 1, 2, 3, 4, 5, 63, 64, 65, 66, 127, 128, 129, 4096, 4097, 10_000];

/// A drawn step whose unused numbers are any: a call ignores them.
fn drawn_step(rng: &mut Rng, shape: &Shape, cells: &[Vector]) -> Step {
    let Step { op, a, b, c } = rng.step(shape, cells);
    let any = [rng.next() as u32, rng.next() as u32];
    match operands(op) {
        1 => Step {
            op,
            a,
            b: any[0],
            c: any[1],
        },
        2 => Step { op, a, b, c: any[1] },
        _ => Step { op, a, b, c },
    }
}

#[test]
fn drawn_calls() {
    let mut draws = Draws::new(3_000, 56);
    let mut refused = [0; 15];
    let mut shares = StepShares::default();
    for _ in 0..draws.count {
        let rng = &mut draws.rng;
        let shape = Shape {
            has_faults: true,
            ..Shape::short(rng)
        };
        let words = rng.choose(&[8, 40, 600, 2400]);
        let scratch = rng.choose(&[1, 2, 157, 157, 157]);
        let mut pair = Pair {
            store: Store::new(),
            machine: Machine::new(rng.memory([words; 2], [scratch, scratch + 1])),
        };
        for _ in 0..24 {
            let number;
            (pair, number) = if pair.machine.cells.is_empty() || rng.below(3) == 0 {
                let width = rng.choose(&WIDTHS);
                let v = rng.operand(width);
                pair.input(&v)
            } else {
                let step = drawn_step(rng, &shape, &pair.machine.cells);
                let (pair, number) = pair.step(step);
                if number == 0 {
                    shares.count(step, |n| pair.machine.cells[n as usize].header);
                }
                (pair, number)
            };
            refused[usize::from(number)] += 1;
        }
    }
    shares.expect();
    assert!(
        [0, 7, 11, 13].iter().all(|n| refused[*n] > draws.share(300)),
        "{refused:?} by number"
    );
}

/// Every op on cells of the widest width and of one bit less, unsigned or signed.
fn widest_calls(seed: u64, is_signed: bool) {
    let mut rng = Rng::new(seed);
    let widest = 16_384;
    let mut pair = Pair {
        store: Store::new(),
        machine: Machine::new(rng.memory([widest * 12; 2], [widest; 2])),
    };
    for width in [MAX_WIDTH, MAX_WIDTH - 1, MAX_WIDTH] {
        let mut v = rng.operand(width);
        (v.header.is_signed, v.header.is_fill) = (is_signed, false);
        pair = pair.input(&v).0;
    }
    for op in Op::ALL {
        let (a, b, c) = match op {
            Op::Select => (1, 0, 2),
            Op::Insert => (0, 1, MAX_WIDTH - 63),
            _ => (0, 1, 0),
        };
        let number;
        (pair, number) = pair.step(Step { op, a, b, c });
        assert_eq!(number, 0, "{op}");
    }
}

#[test]
fn widest_unsigned_calls() {
    widest_calls(57, false);
}

#[test]
fn widest_signed_calls() {
    widest_calls(59, true);
}

//! The reference and the library side by side, in one run of about a minute; prints the figures of docs/PERFORMANCE.md. Words on the command
//! line name the operators to run, all without any; the copy, the runs of step lists, the literals, the forms bit by bit and the arms are
//! always taken.
//!
//! reference: the operator of `Value`, which allocates its result where that is wider than 64 bits; the drop is in the time too.
//! ours: the function over planes, every check included, into planes that are lent again for each call.
//! by value: the method of `Narrow`, at most 64 bits.
//! decide: the comparison over planes that tells its rule; it is raced with our own that gives the bit alone, not with the reference.
//! Each side finds its operands behind a pointer.
//! Inputs are known, or mixed: half of the bits unknown. Those of comparisons, reductions and truth are such that the scan goes to the end:
//! equal operands; all 1 or all 0 but for unknown bits; for the reduction by xor only the top bit is unknown.
mod arms;
mod by_bits;
mod inputs;
mod literals;
mod race;
mod runs;

use arms::Arms;
use by_bits::ByBits;
use inputs::{output, Input};
use race::{Race, Side};
use std::hint::black_box;
use vowherunga::reference::draw::Rng;
use vowherunga::reference::value::Value;
use vowherunga::{bitwise, compare, reduce, Decision, Header, LogicBit, Narrow, Operand, Refusal, MAX_WIDTH};

const WIDTHS: [u32; 7] = [1, 32, 64, 65, 128, 4096, MAX_WIDTH];
const ROUNDS: usize = 5;

/// Every width with either kind of input: whether it is mixed, and its name.
fn kinds() -> impl Iterator<Item = (u32, bool, &'static str)> {
    WIDTHS
        .into_iter()
        .flat_map(|width| [(width, false, "known"), (width, true, "mixed")])
}

/// What a race is about: an operator, a width, known or mixed inputs, and its last side.
struct Row {
    op: &'static str,
    width: u32,
    input: &'static str,
    side: &'static str,
    race: Race,
}

/// A side that makes one call again and again.
fn side<A>(call: impl Fn() -> A + 'static) -> Side {
    Box::new(move |calls| {
        for _ in 0..calls {
            black_box(call());
        }
    })
}

struct Rows(Vec<Row>, Rng);

impl Rows {
    /// A race of each of our sides with the reference, at every width with either kind of input. `sides` gives the reference's side, ours,
    /// and that by value if there is one.
    fn add(&mut self, op: &'static str, sides: impl Fn(&mut Rng, u32, bool) -> (Side, Side, Option<Side>)) {
        for (width, mixed, input) in kinds() {
            let (reference, ours, by_value) = sides(&mut self.1, width, mixed);
            self.push(op, width, input, "ours", [reference, ours]);
            if let Some(by_value) = by_value {
                let (reference, _, _) = sides(&mut self.1, width, mixed);
                self.push(op, width, input, "by value", [reference, by_value]);
            }
        }
    }

    fn push(&mut self, op: &'static str, width: u32, input: &'static str, side: &'static str, sides: [Side; 2]) {
        let race = Race::new(sides.into());
        self.0.push(Row {
            op,
            width,
            input,
            side,
            race,
        });
    }

    /// An operator of two vectors that gives a vector.
    fn of_two(
        &mut self,
        op: &'static str,
        theirs: impl Fn(&Value, &Value) -> Value + Copy + 'static,
        ours: impl Fn(Header, &[u64], &[u64], Header, &[u64], &[u64], &mut [u64], &mut [u64]) -> Result<Header, Refusal> + Copy + 'static,
        by_value: impl Fn(Narrow, Narrow) -> Narrow + Copy + 'static,
    ) {
        self.add(op, |rng, width, mixed| {
            let [a, b] = [(), ()].map(|()| Input::random(rng, width, mixed));
            let (ov, ou) = output(width);
            let reference = side(move || theirs(black_box(a.reference), black_box(b.reference)));
            let lent: Side = Box::new(move |calls| {
                for _ in 0..calls {
                    let (a, b) = (black_box(&a), black_box(&b));
                    black_box(ours(a.header, a.value, a.unknown, b.header, b.value, b.unknown, ov, ou)).unwrap();
                }
            });
            let narrow = a.narrow().zip(b.narrow());
            let word = narrow.map(|(x, y)| side(move || by_value(*black_box(&x), *black_box(&y))));
            (reference, lent, word)
        });
    }

    /// Not.
    fn not(&mut self) {
        self.add("not", |rng, width, mixed| {
            let a = Input::random(rng, width, mixed);
            let (ov, ou) = output(width);
            let lent: Side = Box::new(move |calls| {
                for _ in 0..calls {
                    let a = black_box(&a);
                    black_box(bitwise::bitwise_not(a.header, a.value, a.unknown, ov, ou)).unwrap();
                }
            });
            let word = a.narrow().map(|x| side(move || (*black_box(&x)).bitwise_not()));
            (side(move || black_box(a.reference).bitwise_not()), lent, word)
        });
    }

    /// A comparison of two equal vectors.
    fn comparison(
        &mut self,
        op: &'static str,
        theirs: impl Fn(&Value, &Value) -> Value + Copy + 'static,
        ours: impl Fn(&Input, &Input) -> Result<LogicBit, Refusal> + Copy + 'static,
        by_value: impl Fn(Narrow, Narrow) -> LogicBit + Copy + 'static,
    ) {
        self.add(op, |rng, width, mixed| {
            let [a, b] = Input::equal(rng, width, mixed);
            let reference = side(move || theirs(black_box(a.reference), black_box(b.reference)));
            let lent = side(move || ours(black_box(&a), black_box(&b)).unwrap());
            let narrow = a.narrow().zip(b.narrow());
            let word = narrow.map(|(x, y)| side(move || by_value(*black_box(&x), *black_box(&y))));
            (reference, lent, word)
        });
    }

    /// A comparison of two equal vectors that tells its rule, raced with the one that does not.
    fn decision(
        &mut self,
        op: &'static str,
        bit: impl Fn(&Input, &Input) -> Result<LogicBit, Refusal> + Copy + 'static,
        decision: impl Fn(&Input, &Input) -> Result<Decision, Refusal> + Copy + 'static,
    ) {
        for (width, mixed, input) in kinds() {
            let [a, b] = Input::equal(&mut self.1, width, mixed);
            let without = side(move || bit(black_box(&a), black_box(&b)).unwrap());
            let with = side(move || decision(black_box(&a), black_box(&b)).unwrap());
            self.push(op, width, input, "decide", [without, with]);
        }
    }

    /// A reduction, over inputs that a rule gives.
    fn reduction(
        &mut self,
        op: &'static str,
        input: impl Fn(&mut Rng, u32, bool) -> Input,
        theirs: impl Fn(&Value) -> Value + Copy + 'static,
        ours: impl Fn(Header, &[u64], &[u64]) -> Result<LogicBit, Refusal> + Copy + 'static,
        by_value: impl Fn(Narrow) -> LogicBit + Copy + 'static,
    ) {
        self.add(op, |rng, width, mixed| {
            let a = input(rng, width, mixed);
            let reference = side(move || theirs(black_box(a.reference)));
            let lent = side(move || {
                let a = black_box(&a);
                ours(a.header, a.value, a.unknown).unwrap()
            });
            (reference, lent, a.narrow().map(|x| side(move || by_value(*black_box(&x)))))
        });
    }

    fn truth(&mut self) {
        self.add("truth", |rng, width, mixed| {
            let a = Input::repeated(rng, width, 0, mixed);
            let lent = side(move || {
                let a = black_box(&a);
                reduce::is_nonzero(Operand::Vector(a.header), a.value, a.unknown).unwrap()
            });
            let word = a.narrow().map(|x| side(move || (*black_box(&x)).is_nonzero()));
            (side(move || black_box(a.reference).is_nonzero()), lent, word)
        });
    }
}

/// A bare loop for and: no check, no header, operands of one length.
#[inline(never)]
fn bare_and(a: &Input, b: &Input, ov: &mut [u64], ou: &mut [u64]) {
    let inputs = a.value.iter().zip(a.unknown).zip(b.value.iter().zip(b.unknown));
    for (((av, au), (bv, bu)), (ov, ou)) in inputs.zip(ov.iter_mut().zip(ou)) {
        let not_zero = (av | au) & (bv | bu);
        *ou = (au | bu) & not_zero;
        *ov = not_zero & !*ou;
    }
}

/// A copy of one operand's two planes to the two output planes, `and` of the widest vectors by a bare loop, and ours.
fn against_copy(rng: &mut Rng) -> Race {
    let [a, b] = [(), ()].map(|()| Input::random(rng, MAX_WIDTH, true));
    let [(cv, cu), (lv, lu), (ov, ou)] = [(), (), ()].map(|()| output(MAX_WIDTH));
    Race::new(vec![
        Box::new(move |calls| {
            for _ in 0..calls {
                let a = black_box(&a);
                cv.copy_from_slice(a.value);
                cu.copy_from_slice(a.unknown);
                black_box((&cv, &cu));
            }
        }),
        Box::new(move |calls| {
            for _ in 0..calls {
                bare_and(black_box(&a), black_box(&b), lv, lu);
                black_box((&lv, &lu));
            }
        }),
        Box::new(move |calls| {
            for _ in 0..calls {
                let (a, b) = (black_box(&a), black_box(&b));
                black_box(bitwise::bitwise_and(
                    a.header, a.value, a.unknown, b.header, b.value, b.unknown, ov, ou,
                ))
                .unwrap();
            }
        }),
    ])
}

fn rows() -> Rows {
    let mut rows = Rows(Vec::new(), Rng::new(99));
    rows.of_two("and", Value::bitwise_and, bitwise::bitwise_and, Narrow::bitwise_and);
    rows.of_two("or", Value::bitwise_or, bitwise::bitwise_or, Narrow::bitwise_or);
    rows.of_two("xor", Value::bitwise_xor, bitwise::bitwise_xor, Narrow::bitwise_xor);
    rows.of_two("merge", Value::merge_unknown, bitwise::merge_unknown, Narrow::merge_unknown);
    rows.not();
    let equal = |a: &Input, b: &Input| {
        let [x, y] = [a, b].map(|input| Operand::Vector(input.header));
        compare::is_equal(x, a.value, a.unknown, y, b.value, b.unknown)
    };
    let case = |a: &Input, b: &Input| compare::case_eq(a.header, a.value, a.unknown, b.header, b.value, b.unknown);
    let wildcard = |a: &Input, b: &Input| compare::wildcard_eq(a.header, a.value, a.unknown, b.header, b.value, b.unknown);
    rows.comparison("equal", Value::is_equal, equal, Narrow::is_equal);
    rows.comparison("case", Value::case_eq, case, Narrow::case_eq);
    rows.comparison("wildcard", Value::wildcard_eq, wildcard, Narrow::wildcard_eq);
    let ones = |rng: &mut Rng, width, mixed| Input::repeated(rng, width, u64::MAX, mixed);
    let zeros = |rng: &mut Rng, width, mixed| Input::repeated(rng, width, 0, mixed);
    rows.reduction("reduce and", ones, Value::reduce_and, reduce::reduce_and, Narrow::reduce_and);
    rows.reduction("reduce or", zeros, Value::reduce_or, reduce::reduce_or, Narrow::reduce_or);
    rows.reduction(
        "reduce xor",
        Input::top_unknown,
        Value::reduce_xor,
        reduce::reduce_xor,
        Narrow::reduce_xor,
    );
    rows.truth();
    let decide_equal = |a: &Input, b: &Input| {
        let [x, y] = [a, b].map(|input| Operand::Vector(input.header));
        compare::decide_equal(x, a.value, a.unknown, y, b.value, b.unknown)
    };
    let decide_wildcard = |a: &Input, b: &Input| compare::decide_wildcard(a.header, a.value, a.unknown, b.header, b.value, b.unknown);
    rows.decision("decide equal", equal, decide_equal);
    rows.decision("decide wildcard", wildcard, decide_wildcard);
    rows
}

/// The rows of a side, if there are any; `first` is what they were raced with.
fn print_table(rows: &[Row], first: &str, side: &str) {
    let mut rows = rows.iter().filter(|row| row.side == side).peekable();
    if rows.peek().is_none() {
        return;
    }
    println!("\n| op | width | input | {first} ns | {side} ns | ratio | least and largest of {ROUNDS} rounds |");
    println!("|---|---|---|---|---|---|---|");
    for row in rows {
        let r = row.race.result();
        println!(
            "| {} | {} | {} | {:.1} | {:.1} | {:.3} | {:.3} to {:.3} |",
            row.op, row.width, row.input, r.times[0], r.times[1], r.ratio, r.least, r.largest
        );
    }
}

fn main() {
    let Rows(mut rows, mut rng) = rows();
    let named: Vec<String> = std::env::args().skip(1).collect();
    rows.retain(|row| named.is_empty() || named.iter().any(|op| op == row.op));
    let mut copy = against_copy(&mut rng);
    let (list, store) = ([0, 64, 256], [0, 1, 256]);
    let (mut listed, mut kept) = (runs::listed(list), runs::kept(store));
    let (named_literals, mut literals) = literals::read_and_written(&mut rng);
    let mut by_bits = ByBits::new();
    let mut arms = Arms::new(&mut rng);
    for _ in 0..ROUNDS {
        rows.iter_mut().for_each(|row| row.race.round());
        copy.round();
        listed.round();
        kept.round();
        literals.round();
        by_bits.round();
        arms.round();
    }
    print_table(&rows, "reference", "ours");
    print_table(&rows, "reference", "by value");
    print_table(&rows, "is_equal or wildcard_eq", "decide");
    let r = copy.result();
    println!(
        "\n`and` of {MAX_WIDTH} bits, which reads four planes and writes two, takes {:.0} ns; to copy two planes of that width to two others \
         takes {:.0} ns: {:.2} times ({:.2} to {:.2}). A bare loop in Rust that does the same, without a check, takes {:.0} ns.",
        r.times[2], r.times[0], r.ratio, r.least, r.largest, r.times[1]
    );
    let times = listed.result().times;
    println!();
    for (steps, ns) in list.iter().zip(&times) {
        println!("A run of {steps} steps of 64 bits takes {:.1} µs.", ns / 1000.0);
    }
    println!("A step of {} takes {:.0} ns.", list[2], (times[2] - times[0]) / list[2] as f64);
    let times = kept.result().times;
    println!(
        "`add_step` takes {:.0} ns in a store of one cell, and {:.0} ns as a mean over {} steps.",
        times[1] - times[0],
        (times[2] - times[0]) / store[2] as f64,
        store[2]
    );
    println!();
    for (name, ns) in named_literals.iter().zip(literals.result().times) {
        println!("{name} takes {ns:.0} ns.");
    }
    by_bits.print();
    arms.print();
}

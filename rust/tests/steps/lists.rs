//! Drawn lists run on both sides.
use crate::alike::Runs;
use crate::draws::Draws;
use crate::shares::StepShares;
use vowherunga::reference::draw::Rng;
use vowherunga::reference::steps::{Memory, Shape};
use vowherunga::steps::Op;

#[test]
fn drawn_lists() {
    let mut draws = Draws::new(24_000, 50);
    let mut runs = Runs::new();
    let mut ops = [0; 17];
    let mut shares = StepShares::default();
    for _ in 0..draws.count {
        let rng = &mut draws.rng;
        let shape = Shape::any(rng);
        let drawn = rng.list(&shape);
        let memory = rng.memory_for(&drawn);
        let left = runs.compare(drawn.list.text().as_bytes(), &memory);
        let done = left.store.count().saturating_sub(drawn.list.inputs.len());
        for step in &drawn.list.steps[..done] {
            ops[usize::from(step.op.code())] += 1;
            shares.count(*step, |n| left.store.cell(n as usize).unwrap().header);
        }
    }
    shares.expect();
    runs.expect(&draws.endings([
        ("done", 10_000),
        ("refused=4", 100),
        ("refused=6", 50),
        ("refused=7", 100),
        ("refused=11", 500),
        ("refused=13", 1_000),
        ("refused=14", 300),
    ]));
    for (op, n) in Op::ALL.into_iter().zip(ops) {
        assert!(n > draws.share(5_000), "{n} steps {op}");
    }
}

/// Lists that fill all 320 cells, in memory that is just enough, and a word short.
#[test]
fn full_lists() {
    let mut rng = Rng::new(51);
    let mut runs = Runs::new();
    for _ in 0..100 {
        let shape = Shape {
            inputs: 64,
            steps: 256,
            ..Shape::short(&mut rng)
        };
        let drawn = rng.list(&shape);
        let text = drawn.list.text();
        for words in [drawn.words, drawn.words - 1] {
            let memory = rng.memory([words; 2], [drawn.largest; 2]);
            let left = runs.compare(text.as_bytes(), &memory);
            assert_eq!(left.store.count(), 320 - usize::from(words < drawn.words));
        }
    }
    runs.expect(&[("done", 100), ("refused=13", 100)]);
}

/// The longest output that a list within the limits can have.
#[test]
fn longest_output() {
    let bits = "x".repeat(4096);
    let steps = "op=not\na=0\nb=0\nc=0\n".repeat(256);
    let text = format!(
        "inputs=64\nsteps=256\nwidth=4096\nkind=u\nbits={bits}\n{}{steps}",
        "width=0\nkind=u\nbits=\n".repeat(63)
    );
    let mut runs = Runs::new();
    let left = runs.compare(text.as_bytes(), &Memory::zeros(64 + 63 + 256 * 64, 64));
    let longest_line = "cell=319\nbits=\n".len() + 4096;
    let shorter = (64..100).len();
    assert_eq!(left.output.len(), 256 * longest_line - shorter + "done=256\n".len());
    runs.expect(&[("done", 1)]);
}

/// Lists at the limits of the format, and just beyond them.
#[test]
fn limits() {
    let mut rng = Rng::new(58);
    let mut runs = Runs::new();
    let within: [(usize, usize, &'static [u32]); 3] = [(64, 256, &[1]), (1, 1, &[4096]), (3, 4, &[4095])];
    let beyond: [(usize, usize, &'static [u32]); 4] = [(65, 0, &[1]), (65, 256, &[1]), (1, 257, &[1]), (1, 1, &[4097])];
    for (inputs, steps, widths) in within.into_iter().chain(beyond) {
        let shape = Shape {
            inputs,
            steps,
            widths,
            ..Shape::short(&mut rng)
        };
        let list = rng.list(&shape).list;
        let left = runs.compare(list.text().as_bytes(), &Memory::zeros(2048, 2048));
        let is_within = within.contains(&(inputs, steps, widths));
        assert_eq!(
            left.output != "refused=6\nstep=0\n",
            is_within,
            "{inputs} inputs, {steps} steps, {widths:?}"
        );
    }
    runs.expect(&[("done", 3), ("refused=6", 4)]);
}

/// A list of so many bytes: fifteen inputs of 4,096 bits, and one that fills up.
fn list_of(bytes: usize) -> String {
    let input = |width: usize| format!("width={width}\nkind=s\nbits={}\n", "z".repeat(width));
    let list = |last: usize| {
        format!(
            "inputs=16\nsteps=1\n{}{}op=ror\na=0\nb=0\nc=0\n",
            input(4096).repeat(15),
            input(last)
        )
    };
    list(1000 + bytes - list(1000).len())
}

#[test]
fn longest_text() {
    let mut runs = Runs::new();
    for (bytes, want) in [(65_535, "done=1\n"), (65_536, "done=1\n"), (65_537, "refused=6\nstep=0\n")] {
        let text = list_of(bytes);
        assert_eq!(text.len(), bytes);
        let left = runs.compare(text.as_bytes(), &Memory::zeros(2048, 2048));
        assert!(left.output.ends_with(want), "{bytes} bytes");
    }
}

//! Runs on inputs of which unknown bits are made 0 or 1: the same ending, and every known bit kept.
use crate::alike::Runs;
use crate::draws::Draws;
use vowherunga::reference::steps::Shape;

/// Sees that an output is another with unknown bits made any. How many bits of each were known.
fn keeps_known(before: &str, after: &str) -> [usize; 2] {
    let mut known = [0, 0];
    assert_eq!(before.lines().count(), after.lines().count());
    for (x, y) in before.lines().zip(after.lines()) {
        let (Some(x), Some(y)) = (x.strip_prefix("bits="), y.strip_prefix("bits=")) else {
            assert_eq!(x, y, "lines that are no bits");
            continue;
        };
        assert_eq!(x.len(), y.len());
        for (a, b) in x.bytes().zip(y.bytes()) {
            assert!(a == b || a == b'x' || a == b'z', "a known bit was lost:\n{before}\n{after}");
            known[0] += usize::from(a < b'x');
            known[1] += usize::from(b < b'x');
        }
    }
    known
}

#[test]
fn known_bits_are_kept() {
    let mut draws = Draws::new(12_000, 54);
    let mut runs = Runs::new();
    let mut known = [0, 0];
    for _ in 0..draws.count {
        let rng = &mut draws.rng;
        let shape = Shape::any(rng).keeping_known();
        let drawn = rng.list(&shape);
        let refined = rng.refined(&drawn.list);
        let memory = rng.memory_for(&drawn);
        let other = rng.memory(memory.arenas.each_ref().map(Vec::len), memory.scratch.each_ref().map(Vec::len));
        let before = runs.run(drawn.list.text().as_bytes(), &memory);
        let after = runs.run(refined.text().as_bytes(), &other);
        let [a, b] = keeps_known(&before.output, &after.output);
        known = [known[0] + a, known[1] + b];
    }
    assert!(
        known[0] > draws.share(100_000) && known[1] > known[0] + known[0] / 10,
        "{known:?} known bits"
    );
    runs.expect(&draws.endings([("done", 10_000), ("refused=7", 100), ("refused=11", 100), ("refused=13", 100)]));
}

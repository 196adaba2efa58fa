//! A run on both sides, and the library's alone.
use crate::lent::Lent;
use std::collections::BTreeMap;
use vowherunga::reference::steps::{self, Ending, Machine, Memory};
use vowherunga::steps::{run, OUTPUT_BYTES};
use vowherunga::store::{Cell, Store, MAX_CELLS};

/// The store whose cells are a machine's.
pub fn store_of(machine: &Machine) -> Store {
    let mut places = [Cell::default(); MAX_CELLS];
    let mut start = 0;
    for (place, v) in places.iter_mut().zip(&machine.cells) {
        *place = Cell { start, header: v.header };
        start += v.value.len();
    }
    Store::from_parts(&places, machine.cells.len())
}

/// What a call leaves of lent copies of a memory.
pub fn lend<A>(memory: &Memory, call: impl FnOnce([&mut [u64]; 4]) -> A) -> (A, Memory) {
    let mut arenas = memory.arenas.each_ref().map(|plane| Lent::new(plane));
    let mut scratch = memory.scratch.each_ref().map(|plane| Lent::new(plane));
    let ([av, au], [sv, su]) = (&mut arenas, &mut scratch);
    let answer = call([av.plane(), au.plane(), sv.plane(), su.plane()]);
    let left = Memory {
        arenas: arenas.map(Lent::left),
        scratch: scratch.map(Lent::left),
    };
    (answer, left)
}

const STOOD: u8 = 0xee;

/// What the library left of one run, and how it ended.
pub struct Left {
    pub output: String,
    pub ending: Ending,
    pub store: Store,
    pub memory: Memory,
}

/// The ending that the last lines of an output tell.
fn told(output: &str) -> Option<Ending> {
    let mut lines = output.lines().rev();
    let last = lines.next()?;
    if let Some(steps) = last.strip_prefix("done=") {
        return Some(Ok(steps.parse().ok()?));
    }
    let step = last.strip_prefix("step=")?.parse().ok()?;
    let number = lines.next()?.strip_prefix("refused=")?.parse().ok()?;
    Some(Err((number, step)))
}

/// The buffer for the output of runs, one after the other, and how many of them ended how.
pub struct Runs {
    out: Box<[u8; OUTPUT_BYTES]>,
    endings: BTreeMap<String, usize>,
}

impl Runs {
    pub fn new() -> Runs {
        Runs {
            out: vec![STOOD; OUTPUT_BYTES].try_into().unwrap(),
            endings: BTreeMap::new(),
        }
    }

    /// One run of the library, which ends as its output tells. The output's buffer is made as it was.
    pub fn run(&mut self, text: &[u8], memory: &Memory) -> Left {
        let ((output, store, ending), memory) = lend(memory, |[av, au, sv, su]| {
            let ran = run(text, av, au, sv, su, &mut self.out);
            (ran.output.to_string(), ran.store, ran.ending)
        });
        self.out[..output.len()].fill(STOOD);
        let ending = ending.map_err(|(refusal, step)| (refusal.number(), step));
        assert_eq!(Some(ending), told(&output), "another ending than the output tells");
        let kind = ending.map_or_else(|(number, _)| format!("refused={number}"), |_| "done".to_string());
        *self.endings.entry(kind).or_default() += 1;
        Left {
            output,
            ending,
            store,
            memory,
        }
    }

    /// A run gives the output, the ending, the store and every word of memory as the reference has them.
    pub fn compare(&mut self, text: &[u8], memory: &Memory) -> Left {
        let want = steps::run(text, memory.clone());
        let got = self.run(text, memory);
        let list = || String::from_utf8_lossy(&text[..text.len().min(4096)]).into_owned();
        for (k, (ours, theirs)) in got.output.lines().zip(want.output.lines()).enumerate() {
            assert_eq!(ours, theirs, "line {} of the output of\n{}", k + 1, list());
        }
        assert!(got.output == want.output, "another output of\n{}", list());
        assert_eq!(got.ending, want.ending, "another ending of\n{}", list());
        assert!(got.store == store_of(&want.machine), "another store after\n{}", list());
        assert!(got.memory == want.machine.memory, "other words in memory after\n{}", list());
        got
    }

    /// Sees that so many runs at least ended as told, and that no run wrote behind its output.
    pub fn expect(&self, least: &[(&str, usize)]) {
        println!("runs by their endings: {:?}", self.endings);
        for (ending, n) in least {
            let ended = self.endings.get(*ending).copied().unwrap_or(0);
            assert!(ended >= *n, "{ended} runs ended with {ending}, not {n}: {:?}", self.endings);
        }
        assert!(self.out.iter().all(|byte| *byte == STOOD), "a byte behind the output was written");
    }
}

//! The run of a step list: where it is refused, what its output says, and that what was there stays.
use crate::arrays::{raw_parts, Arrays};
use crate::lent::Lent;
use vowherunga::raw::store::{vowherunga_run, RunResult};
use vowherunga::steps::{run, OUTPUT_BYTES};
use vowherunga::store::Cell;
use vowherunga::{Header, Refusal};

type Ending = Result<u32, (Refusal, u32)>;

const STOOD: u64 = 0x0123_4567_89ab_cdef;

fn buffer() -> Box<[u8; OUTPUT_BYTES]> {
    vec![0xee; OUTPUT_BYTES].try_into().unwrap()
}

/// The output and the ending of a run in planes of some lengths (two arenas, two scratch planes), the cells it filled, and the planes after it.
fn runs(text: &str, lengths: [usize; 4]) -> (String, Ending, usize, [Vec<u64>; 4]) {
    let mut planes = lengths.map(|words| Lent::new(&vec![STOOD; words]));
    let [av, au, sv, su] = &mut planes;
    let mut out = buffer();
    let ran = run(text.as_bytes(), av.plane(), au.plane(), sv.plane(), su.plane(), &mut out);
    let (output, ending, count) = (ran.output.to_string(), ran.ending, ran.store.count());
    assert!(
        out[output.len()..].iter().all(|byte| *byte == 0xee),
        "a byte behind the output was written"
    );
    (output, ending, count, planes.map(Lent::left))
}

/// Two inputs, 1x and 01, and two steps.
fn list(first: &str, second: &str) -> String {
    format!("inputs=2\nsteps=2\nwidth=2\nkind=u\nbits=1x\nwidth=2\nkind=u\nbits=01\n{first}{second}")
}

const AND: &str = "op=and\na=0\nb=1\nc=0\n";
const ROR: &str = "op=ror\na=2\nb=0\nc=0\n";

/// Texts that are no step list.
fn no_lists() -> Vec<String> {
    vec![
        String::new(),
        "inputs=0\nsteps=0".to_string(),
        "inputs=65\nsteps=0\n".to_string(),
        list(AND, ""),
        list(AND, ROR) + "\n",
        "0".repeat(70_000),
    ]
}

#[test]
fn of_a_text() {
    for text in no_lists() {
        let (output, ending, count, planes) = runs(&text, [4, 4, 1, 1]);
        assert_eq!((&output[..], count), ("refused=6\nstep=0\n", 0));
        assert_eq!(ending, Err((Refusal::BadFormat, 0)));
        assert!(planes.iter().flatten().all(|word| *word == STOOD), "a refused run wrote");
    }
}

/// The arrays of a store that no run leaves.
fn other() -> Arrays {
    Arrays::new(&std::array::from_fn(|i| Cell {
        start: 1000 + i,
        header: Header {
            width: 7 + i as u32,
            is_signed: i % 2 == 0,
            is_fill: i % 3 == 0,
        },
    }))
}

/// What the export answers to a text with these arrays, the arrays after it, the output, and the planes.
fn runs_into(text: &str) -> (RunResult, Arrays, String, [Vec<u64>; 4]) {
    let mut arrays = other();
    let mut planes = [4, 4, 1, 1].map(|words| Lent::new(&vec![STOOD; words]));
    let mut out = buffer();
    let [av, au, sv, su] = raw_parts(planes.each_mut().map(Lent::plane));
    let (starts, widths, signs, fills) = arrays.pointers();
    let (text, bytes) = (text.as_ptr(), text.len());
    let r = unsafe {
        vowherunga_run(
            text, bytes, av.0, av.1, au.0, au.1, sv.0, sv.1, su.0, su.1, starts, widths, signs, fills, &mut *out,
        )
    };
    let output = String::from_utf8(out[..r.length].to_vec()).unwrap();
    (r, arrays, output, planes.map(Lent::left))
}

#[test]
fn of_a_text_leaves_the_store_arrays() {
    for text in no_lists() {
        let (r, arrays, output, planes) = runs_into(&text);
        assert_eq!((r.count, r.refusal, r.step, &output[..]), (0, 6, 0, "refused=6\nstep=0\n"));
        assert_eq!(arrays, other(), "a refused run wrote the store's arrays");
        assert!(planes.iter().flatten().all(|word| *word == STOOD), "a refused run wrote");
    }
    // where the text is a list, the arrays are those of the run's store
    for text in [
        list(AND, ROR),
        list(ROR, AND),
        "inputs=1\nsteps=0\nwidth=0\nkind=f\nbits=\n".to_string(),
    ] {
        let mut planes = [4, 4, 1, 1].map(|words| vec![STOOD; words]);
        let [av, au, sv, su] = &mut planes;
        let mut out = buffer();
        let ran = run(text.as_bytes(), av, au, sv, su, &mut out);
        let (r, arrays, output, left) = runs_into(&text);
        assert_eq!((&arrays.store(r.count), &output[..]), (&ran.store, ran.output));
        let ending = ran
            .ending
            .map_or_else(|(refusal, step)| (refusal.number(), step), |steps| (0, steps));
        assert_eq!((r.refusal, r.step), ending);
        assert_eq!(left, planes);
    }
}

#[test]
fn of_an_input() {
    // the second input has no word
    let (output, ending, count, planes) = runs(&list(AND, ROR), [1, 1, 1, 1]);
    assert_eq!((&output[..], count), ("refused=13\nstep=0\n", 1));
    assert_eq!(ending, Err((Refusal::NoRoom, 0)));
    assert_eq!(planes, [vec![2], vec![1], vec![STOOD], vec![STOOD]]);
    // arenas that differ
    let (output, ending, count, planes) = runs(&list(AND, ROR), [4, 5, 1, 1]);
    assert_eq!((&output[..], count), ("refused=14\nstep=0\n", 0));
    assert_eq!(ending, Err((Refusal::BadStore, 0)));
    assert!(planes.iter().flatten().all(|word| *word == STOOD), "a refused run wrote");
    // an empty fill
    let (output, ending, count, _) = runs("inputs=1\nsteps=0\nwidth=0\nkind=f\nbits=\n", [4, 4, 1, 1]);
    assert_eq!((&output[..], count), ("refused=4\nstep=0\n", 0));
    assert_eq!(ending, Err((Refusal::EmptyFill, 0)));
}

/// A run that is refused at a step: the lines of the cells before it stand in front of its ending, and the step has written nothing.
fn refuses_step(text: &str, lengths: [usize; 4], lines: &str, refusal: Refusal, step: u32, cells: usize) {
    let (output, ending, count, [av, au, sv, su]) = runs(text, lengths);
    let want = format!("{lines}refused={}\nstep={step}\n", refusal.number());
    assert_eq!((output, ending, count), (want, Err((refusal, step)), cells));
    assert!(
        av[cells..].iter().chain(&au[cells..]).all(|word| *word == STOOD),
        "a refused step wrote"
    );
    assert_eq!(sv.iter().chain(&su).all(|word| *word == STOOD), step < 2, "scratch after\n{text}");
}

#[test]
fn of_a_step() {
    let (bit, wrong_cell, arms) = ("op=ror\na=0\nb=0\nc=0\n", "op=ror\na=3\nb=0\nc=0\n", "op=sel\na=0\nb=1\nc=2\n");
    refuses_step(&list(AND, wrong_cell), [4, 4, 1, 1], "cell=2\nbits=0x\n", Refusal::NoSuchCell, 2, 3);
    refuses_step(&list(ROR, AND), [4, 4, 1, 1], "", Refusal::NoSuchCell, 1, 2);
    refuses_step(&list(bit, arms), [4, 4, 1, 1], "cell=2\nbits=1\n", Refusal::BadArms, 2, 3);
    refuses_step(&list(AND, ROR), [3, 3, 1, 1], "cell=2\nbits=0x\n", Refusal::NoRoom, 2, 3);
    refuses_step(&list(AND, ROR), [4, 4, 0, 1], "", Refusal::NoRoom, 1, 2);
    refuses_step(&list(AND, ROR), [4, 4, 1, 0], "", Refusal::NoRoom, 1, 2);
    let no_inputs = "inputs=0\nsteps=1\nop=not\na=0\nb=0\nc=0\n";
    refuses_step(no_inputs, [1, 2, 1, 1], "", Refusal::BadStore, 1, 0);
}

/// Arenas that differ in length are of no account where there is nothing to do.
#[test]
fn of_nothing() {
    let (output, ending, count, planes) = runs("inputs=0\nsteps=0\n", [1, 2, 1, 1]);
    assert_eq!((&output[..], ending, count), ("done=0\n", Ok(0), 0));
    assert!(planes.iter().flatten().all(|word| *word == STOOD), "a run without steps wrote");
}

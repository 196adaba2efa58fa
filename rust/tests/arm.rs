//! The arm that a truth picks: it is the caller's own memory, by pointer and length, and the arm that the step sel takes. The inputs are fixed.
#[path = "generator/mod.rs"]
mod generator;

use generator::Draw;
use std::ops::Range;
use vowherunga::arm::chosen_arm;
use vowherunga::planes::word_count;
use vowherunga::steps::{Op, Step};
use vowherunga::store::{Store, Stored};
use vowherunga::{raw, reduce, Header, Operand, Truth};

const TRUTHS: [Truth; 3] = [Truth::False, Truth::True, Truth::Unknown];

/// Where the chosen arm lies, by document 02, point 5.
fn place(t: Truth, first: Range<usize>, second: Range<usize>) -> Range<usize> {
    match t {
        Truth::True => first,
        Truth::False => second,
        Truth::Unknown => first.start..first.start,
    }
}

/// Holds each truth on two parts of one memory to the place of the part that is to come back; the memory stays as it was.
fn is_own(memory: &[u64], first: Range<usize>, second: Range<usize>) {
    let before = memory.to_vec();
    for t in TRUTHS {
        let chosen = chosen_arm(t, &memory[first.clone()], &memory[second.clone()]);
        let own = &memory[place(t, first.clone(), second.clone())];
        assert_eq!(chosen.as_ptr_range(), own.as_ptr_range(), "{t:?} of {first:?} and {second:?}");
    }
    assert!(memory == before, "{first:?} and {second:?} were written");
}

/// Every two parts of six words: empty ones, of one length and of two, apart, beside each other, overlapping, and the same.
#[test]
fn is_the_callers_own_part() {
    let memory = [1, 2, 3, 4, 5, 6];
    let parts: Vec<Range<usize>> = (0..=6).flat_map(|end| (0..=end).map(move |start| start..end)).collect();
    assert_eq!(parts.len(), 28);
    for first in &parts {
        for second in &parts {
            is_own(&memory, first.clone(), second.clone());
        }
    }
}

/// Planes of the widest vector and longer ones, and empty slices of no memory.
#[test]
fn is_the_callers_own_at_any_length() {
    let words = word_count(vowherunga::MAX_WIDTH);
    let memory: Vec<u64> = (0..1 << 20).collect();
    for first in [0..words, 0..words + 1, 7..memory.len(), 3..3] {
        for second in [words..2 * words, 1..2, 0..memory.len(), memory.len()..memory.len()] {
            is_own(&memory, first.clone(), second.clone());
        }
    }
    let none: [&[u64]; 2] = [&[], &Vec::new()];
    for t in TRUTHS {
        let own = none[usize::from(t == Truth::False)];
        assert_eq!(chosen_arm(t, none[0], none[1]).as_ptr_range(), own.as_ptr_range());
    }
}

/// The code of a truth is that of a bit, modulo 4; x and z are unknown.
#[test]
fn of_every_code() {
    let (first, second) = ([1, 2, 3], [4, 5]);
    for code in 0..=255 {
        let r = unsafe { raw::vowherunga_chosen_arm(code, first.as_ptr(), first.len(), second.as_ptr(), second.len()) };
        let told = [(true, 2), (false, 3), (false, 0), (false, 0)][usize::from(code % 4)];
        assert_eq!((r.is_second, r.length), told, "code {code}");
    }
}

/// A vector's planes, of which some bits are known as 1 and some unknown, seldom or often.
struct Planes {
    header: Header,
    value: Vec<u64>,
    unknown: Vec<u64>,
}

impl Planes {
    fn draw(draw: &mut Draw, width: u32, is_signed: bool) -> Planes {
        let (ones, unknowns) = (draw.below(3), draw.below(3));
        let mut plane = |amount: usize| -> Vec<u64> {
            let mut words: Vec<u64> = (0..word_count(width))
                .map(|_| [0, draw.word() & draw.word(), draw.word()][amount])
                .collect();
            let top = words.last_mut().unwrap();
            *top &= match width {
                0 => 0,
                w => u64::MAX >> ((64 - w % 64) % 64),
            };
            words
        };
        Planes {
            header: Header {
                width,
                is_signed,
                is_fill: false,
            },
            value: plane(ones),
            unknown: plane(unknowns),
        }
    }
}

/// The words in both arenas of what the step sel makes of a condition and two arms.
fn selected(a: &Planes, b: &Planes, c: &Planes) -> [Vec<u64>; 2] {
    let words = a.value.len() + 3 * b.value.len();
    let (mut value, mut unknown) = (vec![0; words], vec![0; words]);
    let (mut scratch_value, mut scratch_unknown) = (vec![0; words], vec![0; words]);
    let mut store = Store::new();
    for input in [a, b, c] {
        let Stored { answer, store: next } = store.add_input(input.header, &input.value, &input.unknown, &mut value, &mut unknown);
        answer.unwrap();
        store = next;
    }
    let step = Step {
        op: Op::Select,
        a: 0,
        b: 1,
        c: 2,
    };
    let Stored { answer, store } = store.add_step(step, &mut value, &mut unknown, &mut scratch_value, &mut scratch_unknown);
    let cell = store.cell(answer.unwrap()).unwrap();
    [value[cell.words()].to_vec(), unknown[cell.words()].to_vec()]
}

/// Where the truth of a condition is known, both chosen planes have the words of what sel makes; where it is unknown they are empty.
#[test]
fn is_the_arm_of_sel() {
    const WIDTHS: [u32; 9] = [0, 1, 2, 63, 64, 65, 128, 129, 300];
    let mut draw = Draw::new(5);
    let mut seen = [0; 3];
    for _ in 0..20_000 {
        let (condition, arms) = (draw.choose(&WIDTHS), draw.choose(&WIDTHS));
        let a = Planes::draw(&mut draw, condition, false);
        let [b, c] = [false, true].map(|is_signed| Planes::draw(&mut draw, arms, is_signed));
        let t = reduce::is_nonzero(Operand::Vector(a.header), &a.value, &a.unknown).unwrap();
        let chosen = [chosen_arm(t, &b.value, &c.value), chosen_arm(t, &b.unknown, &c.unknown)];
        match t {
            Truth::Unknown => assert_eq!(chosen, [&[]; 2]),
            _ => assert_eq!(chosen, selected(&a, &b, &c)),
        }
        seen[t as usize] += 1;
    }
    assert!(seen.iter().all(|n| *n >= 1_000), "{seen:?} of each truth");
}

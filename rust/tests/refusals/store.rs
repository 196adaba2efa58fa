//! The calls of the store: each refusal, which one comes first, and that a refused call changes neither the store nor a lent word.
use crate::arrays::{raw_parts, Arrays};
use crate::lent::Lent;
use crate::table::{fills_and_reals, vectors};
use vowherunga::planes::word_count;
use vowherunga::raw::store::{vowherunga_add_step, NO_SUCH_OP};
use vowherunga::steps::{Op, Step};
use vowherunga::store::{Cell, Store, Stored, MAX_CELLS};
use vowherunga::{Header, Refusal, MAX_WIDTH};

/// The parts of a store and what is lent beside it.
#[derive(Clone)]
struct State {
    places: [Cell; MAX_CELLS],
    count: usize,
    arenas: [Vec<u64>; 2],
    scratch: [Vec<u64>; 2],
}

const STOOD: u64 = 0x0123_4567_89ab_cdef;

fn header(width: u32, is_signed: bool, is_fill: bool) -> Header {
    Header { width, is_signed, is_fill }
}

/// Cells of zeros with these headers, one behind the other, and some words behind them.
fn state(headers: &[Header], behind: usize) -> State {
    let mut places = [Cell::default(); MAX_CELLS];
    let mut end = 0;
    for (place, header) in places.iter_mut().zip(headers) {
        *place = Cell {
            start: end,
            header: *header,
        };
        end += word_count(header.width);
    }
    let arena = [vec![0; end], vec![STOOD; behind]].concat();
    State {
        places,
        count: headers.len(),
        arenas: [arena.clone(), arena],
        scratch: [vec![STOOD; 4], vec![STOOD; 4]],
    }
}

/// Five cells: of two words, signed, a fill, empty, and unsigned of the signed one's width.
fn five_cells() -> State {
    let headers = [
        header(65, false, false),
        header(3, true, false),
        header(3, false, true),
        header(0, false, false),
        header(3, false, false),
    ];
    state(&headers, 4)
}

impl State {
    fn store(&self) -> Store {
        Store::from_parts(&self.places, self.count)
    }

    /// A call that answers a number (0: done), after which a refused one has changed nothing; a store that did add a cell has it behind the others.
    fn answers(&self, want: u8, of: &str, call: impl FnOnce(Store, [&mut [u64]; 4]) -> Stored) {
        let mut arenas = self.arenas.each_ref().map(|plane| Lent::new(plane));
        let mut scratch = self.scratch.each_ref().map(|plane| Lent::new(plane));
        let ([av, au], [sv, su]) = (&mut arenas, &mut scratch);
        let Stored { answer, store } = call(self.store(), [av.plane(), au.plane(), sv.plane(), su.plane()]);
        let (arenas, scratch) = (arenas.map(Lent::left), scratch.map(Lent::left));
        assert_eq!(answer.map_err(Refusal::number).err().unwrap_or(0), want, "{of}");
        match answer {
            Ok(cell) => self.has_grown(&store, &arenas, cell, of),
            Err(_) => {
                let same = store == self.store() && arenas == self.arenas && scratch == self.scratch;
                assert!(same, "a refused call changed something: {of}");
            }
        }
    }

    /// The new cell is the next one, its words lie behind the last one's, and nothing else has changed in the store and in the arenas.
    fn has_grown(&self, store: &Store, arenas: &[Vec<u64>; 2], cell: usize, of: &str) {
        let count = self.count;
        assert_eq!((cell, store.count()), (count, count + 1), "{of}");
        let new = store.cell(cell).unwrap();
        let filled = &self.places[..count];
        let end = filled.iter().map(|cell| word_count(cell.header.width)).sum::<usize>();
        assert_eq!(new.start, end, "{of}");
        let mut places = self.places;
        places[count] = new;
        assert!(*store == Store::from_parts(&places, count + 1), "another cell changed: {of}");
        for (before, after) in self.arenas.iter().zip(arenas) {
            let words = new.words();
            let same = before[..words.start] == after[..words.start] && before[words.end..] == after[words.end..];
            assert!(same, "a word beside the new cell changed: {of}");
        }
    }

    fn input(&self, want: u8, h: Header, value: &[u64], unknown: &[u64]) {
        let (mut v, mut u) = (Lent::new(value), Lent::new(unknown));
        self.answers(want, &format!("an input {h:?}"), |store, [av, au, _, _]| {
            store.add_input(h, v.plane(), u.plane(), av, au)
        });
        assert!(v.left() == value && u.left() == unknown, "an input's planes changed");
    }

    fn step(&self, want: u8, op: Op, [a, b, c]: [u32; 3]) {
        let step = Step { op, a, b, c };
        self.answers(want, &format!("{step:?}"), |store, [av, au, sv, su]| {
            store.add_step(step, av, au, sv, su)
        });
    }

    /// An input and a step that are sound answer the number; where it is 14, so do those that would be refused by another one.
    fn both(&self, want: u8) {
        self.input(want, header(1, false, false), &[1], &[0]);
        self.step(want, Op::And, [0, 0, 0]);
        if want == 14 {
            self.input(14, header(MAX_WIDTH + 1, false, false), &[], &[]);
            self.input(14, header(0, false, true), &[0], &[0]);
            self.step(14, Op::And, [u32::MAX, 0, 0]);
            self.step(14, Op::Select, [0, 0, 1]);
        }
    }
}

/// A state that differs from the five cells in one thing.
fn changed(change: impl FnOnce(&mut State)) -> State {
    let mut state = five_cells();
    change(&mut state);
    state
}

#[test]
fn of_a_store_that_disagrees() {
    five_cells().both(0);
    // more than 320 cells
    for count in [321, 322, usize::MAX] {
        let mut state = state(&[header(0, false, false); MAX_CELLS], 4);
        state.count = count;
        state.both(14);
    }
    // arenas of different length
    changed(|s| s.arenas[0].truncate(9)).both(14);
    changed(|s| s.arenas[1].truncate(9)).both(14);
    // spans that do not begin where the last one ended
    changed(|s| s.places[0].start = 1).both(14);
    changed(|s| s.places[1].start = 1).both(14);
    changed(|s| s.places[4].start = 6).both(14);
    changed(|s| s.places[4].start = usize::MAX).both(14);
    changed(|s| s.places[1].header.width = 65).both(14);
    // a span past the arenas
    changed(|s| s.arenas.iter_mut().for_each(|a| a.truncate(5))).both(14);
    changed(|s| s.places[4].header.width = 6 * 64).both(14);
    changed(|s| s.places[4].header.width = u32::MAX).both(14);
    changed(|s| s.arenas = [vec![], vec![]]).both(14);
    // a bit at or above a cell's width: 3
    for arena in [0, 1] {
        changed(|s| s.arenas[arena][1] = 2).both(14);
        changed(|s| s.arenas[arena][2] = 8).both(14);
        changed(|s| s.arenas[arena][4] = 1).both(14);
        changed(|s| s.arenas[arena][5] = 1 << 63).both(14);
    }
    // an empty fill: 4
    changed(|s| s.places[3].header.is_fill = true).both(14);
}

/// A cell wider than any vector, in arenas that are long enough: 1.
#[test]
fn of_a_cell_that_is_too_wide() {
    for (width, want) in [(MAX_WIDTH, 0), (MAX_WIDTH + 1, 14)] {
        let mut state = state(&[header(width, false, false)], 20_000);
        state.scratch = [vec![STOOD; 20_000], vec![STOOD; 20_000]];
        state.both(want);
    }
}

/// What stands behind the filled cells is of no account.
#[test]
fn of_cells_not_filled() {
    let no_cell = Cell {
        start: usize::MAX,
        header: header(u32::MAX, false, true),
    };
    changed(|s| s.places[5..].fill(no_cell)).both(0);
    changed(|s| s.arenas.iter_mut().for_each(|a| a[6..].fill(u64::MAX))).both(0);
    let mut empty = five_cells();
    empty.count = 0;
    empty.input(0, header(64, true, true), &[7], &[7]);
    empty.step(11, Op::Not, [0, 0, 0]);
}

#[test]
fn of_a_full_store() {
    let plain = header(0, false, false);
    let full = state(&[plain; MAX_CELLS], 0);
    full.both(12);
    // before 1 to 4, before 11 and 7, and before 13: there is no word left
    full.input(12, header(MAX_WIDTH + 1, false, false), &[], &[]);
    full.input(12, header(1, false, false), &[], &[]);
    full.input(12, header(1, false, false), &[2], &[0]);
    full.input(12, header(0, false, true), &[0], &[0]);
    full.step(12, Op::And, [320, 0, 0]);
    full.step(12, Op::Select, [0, 0, u32::MAX]);
    state(&[plain; MAX_CELLS], 4).both(12);
    // one cell is left
    state(&[plain; MAX_CELLS - 1], 1).both(0);
    state(&[plain; MAX_CELLS - 1], 0).both(13);
}

#[test]
fn of_inputs() {
    let (roomy, full) = (state(&[header(1, false, false)], 16_384), state(&[header(1, false, false)], 0));
    let mut seen = [0; 5];
    for input in vectors().into_iter().chain(fills_and_reals()) {
        if let Some(h) = input.header() {
            roomy.input(input.operators, h, &input.value, &input.unknown);
            full.input(
                if input.operators == 0 { 13 } else { input.operators },
                h,
                &input.value,
                &input.unknown,
            );
            seen[usize::from(input.operators)] += 1;
        }
    }
    assert!(seen.iter().all(|n| *n > 0), "{seen:?} by number");
}

#[test]
fn of_operands_not_filled() {
    let state = five_cells();
    for op in Op::ALL {
        let used = match op {
            Op::Not | Op::ReduceAnd | Op::ReduceOr | Op::ReduceXor => 1,
            Op::Select => 3,
            _ => 2,
        };
        state.step(0, op, [1, 1, 1]);
        for place in 0..3 {
            for number in [5, 319, 320, u32::MAX] {
                let mut operands = [1, 1, 1];
                operands[place] = number;
                state.step(if place < used { 11 } else { 0 }, op, operands);
            }
        }
    }
    // before 7 and before 13
    let full = changed(|s| s.arenas.iter_mut().for_each(|a| a.truncate(6)));
    for operands in [[5, 0, 1], [0, 5, 2], [0, 2, 5], [5, 5, 5]] {
        state.step(11, Op::Select, operands);
        full.step(11, Op::Select, operands);
    }
    full.step(11, Op::And, [0, 5, 0]);
}

#[test]
fn of_arms() {
    let state = five_cells();
    let full = changed(|s| s.arenas.iter_mut().for_each(|a| a.truncate(6)));
    // widths that differ, a fill on either side and on both
    for (b, c) in [(0, 1), (1, 0), (3, 4), (1, 2), (2, 4), (2, 2)] {
        state.step(7, Op::Select, [0, b, c]);
        full.step(7, Op::Select, [0, b, c]);
    }
    // a condition may be a fill of another width; arms may differ in sign, and may be empty
    state.step(0, Op::Select, [2, 1, 4]);
    state.step(0, Op::Select, [0, 4, 1]);
    state.step(0, Op::Select, [0, 3, 3]);
    full.step(13, Op::Select, [0, 1, 4]);
}

#[test]
fn of_too_few_words() {
    // the arenas: a word short, and just enough
    let words = |n: usize| changed(|s| s.arenas.iter_mut().for_each(|a| a.truncate(6 + n)));
    words(0).both(13);
    words(1).input(0, header(64, false, false), &[0], &[0]);
    words(1).input(13, header(65, false, false), &[0, 0], &[0, 0]);
    words(2).input(0, header(65, false, false), &[0, 0], &[0, 0]);
    words(1).step(13, Op::Not, [0, 0, 0]);
    words(1).step(0, Op::Equal, [0, 0, 0]);
    words(2).step(0, Op::Not, [0, 0, 0]);
    words(0).step(13, Op::Not, [3, 0, 0]);
    // each scratch plane on its own; an input needs none
    for plane in [0, 1] {
        let short = |n: usize| changed(|s| s.scratch[plane].truncate(n));
        short(0).step(13, Op::ReduceOr, [1, 0, 0]);
        short(0).step(13, Op::Not, [3, 0, 0]);
        short(1).step(0, Op::ReduceOr, [0, 0, 0]);
        short(1).step(13, Op::Or, [1, 0, 0]);
        short(2).step(0, Op::Or, [1, 0, 0]);
        short(0).input(0, header(65, false, false), &[0, 0], &[0, 0]);
    }
}

/// Codes that are no op's, handed to the export itself: 255, which is no refusal's number, and nothing changes, whatever the operands name.
#[test]
fn of_codes_of_no_op() {
    assert_eq!((NO_SUCH_OP, Refusal::from_number(NO_SUCH_OP)), (255, None));
    for code in (0..=u8::MAX).filter(|code| Op::from_code(*code).is_none()) {
        for [a, b, c] in [[0, 0, 0], [1, 4, 2], [u32::MAX; 3]] {
            let state = five_cells();
            let before = Arrays::new(&state.places);
            let mut after = before.clone();
            let (starts, widths, signs, fills) = after.pointers();
            let mut planes = [&state.arenas, &state.scratch].map(|pair| pair.each_ref().map(|plane| Lent::new(plane)));
            let [[av, au], [sv, su]] = planes.each_mut().map(|pair| raw_parts(pair.each_mut().map(Lent::plane)));
            let r = unsafe {
                vowherunga_add_step(
                    state.count,
                    starts,
                    widths,
                    signs,
                    fills,
                    code,
                    a,
                    b,
                    c,
                    av.0,
                    av.1,
                    au.0,
                    au.1,
                    sv.0,
                    sv.1,
                    su.0,
                    su.1,
                )
            };
            assert_eq!(r.refusal, NO_SUCH_OP, "code {code}");
            let left = planes.map(|pair| pair.map(Lent::left));
            let same = after == before && left == [state.arenas, state.scratch];
            assert!(same, "the code {code} changed something");
        }
    }
}

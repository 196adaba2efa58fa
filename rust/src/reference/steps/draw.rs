//! Step lists, refined inputs and memory, drawn from a fixed seed.
use super::{keeps_known, List, Machine, Memory};
use crate::planes::word_count;
use crate::reference::draw::Rng;
use crate::reference::Vector;
use crate::steps::{Op, Step};
use crate::Header;

/// Widths of few bits, at the edges of words, and of many words.
const FEW: &[u32] = &[0, 1, 1, 2, 2, 3, 4, 5];
const EDGES: &[u32] = &[0, 1, 2, 63, 64, 65, 127, 128];
const WIDE: &[u32] = &[1, 64, 65, 4095, 4095, 4096, 4096];

/// What a drawn list is like.
#[derive(Clone, Debug)]
pub struct Shape {
    pub inputs: usize,
    pub steps: usize,
    pub widths: &'static [u32],
    pub ops: Vec<Op>,
    /// Some inputs and steps are refused whatever the memory.
    pub has_faults: bool,
}

impl Shape {
    /// A short list of few bits, with every op, with fills and without faults.
    pub fn short(rng: &mut Rng) -> Shape {
        Shape {
            inputs: 1 + rng.below(6) as usize,
            steps: rng.below(14) as usize,
            widths: FEW,
            ops: Op::ALL.to_vec(),
            has_faults: false,
        }
    }

    /// Without the ops that can lose a known bit.
    pub fn keeping_known(self) -> Shape {
        Shape {
            ops: self.ops.into_iter().filter(|op| keeps_known(*op)).collect(),
            ..self
        }
    }

    /// Any shape: mostly a short list of few bits, sometimes wide, full, too long, or without inputs.
    pub fn any(rng: &mut Rng) -> Shape {
        let short = Shape {
            has_faults: rng.below(2) == 0,
            ..Shape::short(rng)
        };
        match rng.below(80) {
            0 => Shape { inputs: 0, ..short },
            1 => Shape {
                inputs: 64,
                steps: 256,
                has_faults: false,
                widths: rng.choose(&[FEW, EDGES]),
                ..short
            },
            2 => Shape {
                inputs: 30,
                widths: WIDE,
                ..short
            },
            3..=6 => Shape { widths: WIDE, ..short },
            7..=30 => Shape { widths: EDGES, ..short },
            _ => short,
        }
    }
}

/// A list, the words that its cells take where nothing is refused for want of room, and those of the largest cell.
pub struct Drawn {
    pub list: List,
    pub words: usize,
    pub largest: usize,
}

/// The first cell from one on, round the end, whose header is such.
fn found(cells: &[Vector], from: u32, is_such: impl Fn(Header) -> bool) -> Option<u32> {
    let mut numbers = (0..cells.len()).map(|k| (k + from as usize) % cells.len());
    numbers.find(|n| is_such(cells[*n].header)).map(|n| n as u32)
}

impl Rng {
    fn member<'a, T>(&mut self, from: &'a [T]) -> &'a T {
        &from[self.below(from.len() as u64) as usize]
    }

    /// Any bits, or much like an earlier input; of one of the kinds that a list has.
    fn input(&mut self, shape: &Shape, earlier: &[Vector]) -> Vector {
        let width = self.choose(shape.widths);
        let mut v = match earlier.is_empty() || self.below(2) == 0 {
            true => self.operand(width),
            false => {
                let other = self.member(earlier);
                self.like(other, width)
            }
        };
        let may_fill = width > 0 || shape.has_faults && self.below(4) == 0;
        (v.header.is_signed, v.header.is_fill) = match self.below(8) {
            0..=2 => (false, false),
            3..=5 => (true, false),
            _ => (false, may_fill),
        };
        v
    }

    /// A filled cell, in half of the draws one of the last four; 0 if there is none.
    fn cell(&mut self, cells: usize) -> u32 {
        let last = cells.min(4);
        match (cells, self.below(2)) {
            (0, _) => 0,
            (_, 0) => self.below(cells as u64) as u32,
            _ => (cells - last) as u32 + self.below(last as u64) as u32,
        }
    }

    /// A number about the cells that are not filled.
    fn no_cell(&mut self, cells: usize) -> u32 {
        let next = cells as u32;
        self.choose(&[next, next + 1, 319, 320, u32::MAX])
    }

    /// Two cells of one width that are no fills, or any two where there are none.
    fn arms(&mut self, cells: &[Vector]) -> (u32, u32) {
        let (b, c) = (self.cell(cells.len()), self.cell(cells.len()));
        let Some(b) = found(cells, b, |h| !h.is_fill) else {
            return (b, c);
        };
        let width = cells[b as usize].header.width;
        (b, found(cells, c, |h| !h.is_fill && h.width == width).unwrap_or(b))
    }

    /// In half of the draws two signed cells of two widths that are no fills, and in a quarter a fill on one side, where there are such; else any
    /// two.
    fn pair(&mut self, cells: &[Vector]) -> (u32, u32) {
        let (a, b) = (self.cell(cells.len()), self.cell(cells.len()));
        let is_signed = |h: Header| h.is_signed && !h.is_fill;
        match self.below(8) {
            0..=3 => {
                let first = found(cells, a, is_signed).unwrap_or(a);
                let second = found(cells, b, |h| is_signed(h) && h.width != cells[first as usize].header.width);
                second.map_or((a, b), |second| (first, second))
            }
            4 => (found(cells, a, |h| h.is_fill).unwrap_or(a), b),
            5 => (a, found(cells, b, |h| h.is_fill).unwrap_or(b)),
            _ => (a, b),
        }
    }

    /// A position about the edges of a vector, of its words, and of what is inserted.
    fn position(&mut self, a: u32, b: u32) -> u32 {
        let last = a.saturating_sub(b.min(64));
        let any = self.below(u64::from(a) + 2) as u32;
        self.choose(&[0, 1, a.saturating_sub(1), a, a + 1, 63, 64, 65, last, last + 1, any, any, u32::MAX])
    }

    /// A step on the cells so far.
    pub fn step(&mut self, shape: &Shape, cells: &[Vector]) -> Step {
        let is_faulty = shape.has_faults && self.below(12) == 0;
        let op = match is_faulty && self.below(3) == 0 {
            true => Op::Select,
            false => *self.member(&shape.ops),
        };
        let mut n = [(); 3].map(|()| self.cell(cells.len()));
        if op == Op::Select && !is_faulty {
            (n[1], n[2]) = self.arms(cells);
        } else {
            (n[0], n[1]) = self.pair(cells);
        }
        if is_faulty && self.below(3) > 0 {
            n[self.below(3) as usize] = self.no_cell(cells.len());
        }
        if op == Op::Insert {
            let width = |n: u32| cells.get(n as usize).map_or(0, |v| v.header.width);
            n[2] = self.position(width(n[0]), width(n[1]));
        }
        n[super::operands(op)..].fill(0);
        Step {
            op,
            a: n[0],
            b: n[1],
            c: n[2],
        }
    }

    /// A list of a shape.
    pub fn list(&mut self, shape: &Shape) -> Drawn {
        let widest = *shape.widths.iter().max().unwrap();
        let words = (shape.inputs + shape.steps) * word_count(widest);
        let mut machine = Machine::new(Memory::zeros(words, words));
        let mut list = List {
            inputs: Vec::new(),
            steps: Vec::new(),
        };
        for _ in 0..shape.inputs {
            let v = self.input(shape, &list.inputs);
            let _ = machine.add_input(&v);
            list.inputs.push(v);
        }
        for _ in 0..shape.steps {
            let step = self.step(shape, &machine.cells);
            let _ = machine.add_step(step);
            list.steps.push(step);
        }
        Drawn {
            list,
            words: machine.end(),
            largest: machine.cells.iter().map(|v| v.value.len()).max().unwrap_or(0),
        }
    }

    /// The same vector with some of its unknown bits made 0 or 1.
    fn refine(&mut self, v: &Vector) -> Vector {
        let mut refined = v.clone();
        for i in 0..v.header.width as usize {
            let kept = v.code(i);
            refined.set_code(i, if kept < 2 { kept } else { self.choose(&[0, 1, kept]) });
        }
        refined
    }

    /// The same list on refined inputs.
    pub fn refined(&mut self, list: &List) -> List {
        List {
            inputs: list.inputs.iter().map(|v| self.refine(v)).collect(),
            steps: list.steps.clone(),
        }
    }

    fn plane_of(&mut self, words: usize) -> Vec<u64> {
        (0..words).map(|_| self.next()).collect()
    }

    /// Memory of any contents: words of each arena and of each scratch plane.
    pub fn memory(&mut self, arenas: [usize; 2], scratch: [usize; 2]) -> Memory {
        Memory {
            arenas: arenas.map(|words| self.plane_of(words)),
            scratch: scratch.map(|words| self.plane_of(words)),
        }
    }

    /// Memory for a list: in most draws it is just enough, in some as much as the program `cones` lends; in some one of its planes is too
    /// short, or the arenas differ.
    pub fn memory_for(&mut self, drawn: &Drawn) -> Memory {
        let Drawn { words, largest, .. } = *drawn;
        let more = self.below(3) as usize;
        match self.below(16) {
            0 => self.memory([2048; 2], [2048; 2]),
            1..=3 => {
                let arena = self.below(words as u64 + 1) as usize;
                self.memory([arena; 2], [largest + more; 2])
            }
            4 => {
                let short = self.below(largest as u64 + 1) as usize;
                self.memory([words; 2], [short, largest])
            }
            5 => {
                let short = self.below(largest as u64 + 1) as usize;
                self.memory([words; 2], [largest, short])
            }
            6 => self.memory([words, words + more], [largest; 2]),
            _ => self.memory([words + more; 2], [largest, largest + more]),
        }
    }
}

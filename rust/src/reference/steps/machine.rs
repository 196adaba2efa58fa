//! The run of a step list by document 01: cells are vectors, results come from the reference's operators or, where document 02 departs from them,
//! from the standard's, and what is lent is kept whole, so that every word of it can be compared.
use super::list::{digits, List};
use crate::planes::word_count;
use crate::reference::standard::expected;
use crate::reference::value::Value;
use crate::reference::Vector;
use crate::steps::{Op, Step};

/// Two arenas and two scratch planes, value before unknown.
#[derive(Clone, Debug, PartialEq, Eq)]
pub struct Memory {
    pub arenas: [Vec<u64>; 2],
    pub scratch: [Vec<u64>; 2],
}

impl Memory {
    /// Memory of zeros: words of each arena and of each scratch plane.
    pub fn zeros(arenas: usize, scratch: usize) -> Memory {
        Memory {
            arenas: [vec![0; arenas], vec![0; arenas]],
            scratch: [vec![0; scratch], vec![0; scratch]],
        }
    }
}

/// The cells so far, and the memory as they leave it.
#[derive(Clone, Debug)]
pub struct Machine {
    pub cells: Vec<Vector>,
    pub memory: Memory,
}

/// A vector's words at a place of two planes.
fn put(planes: &mut [Vec<u64>; 2], at: usize, v: &Vector) {
    for (plane, words) in planes.iter_mut().zip([&v.value, &v.unknown]) {
        plane[at..at + words.len()].copy_from_slice(words);
    }
}

/// What an op gives for its operands.
fn result<'a>(op: Op, cell: impl Fn(usize) -> &'a Vector, position: u32) -> Vector {
    let operand = |i: usize| cell(i).to_value();
    let given = match op {
        Op::Not => operand(0).bitwise_not(),
        Op::ReduceAnd => operand(0).reduce_and(),
        Op::ReduceOr => operand(0).reduce_or(),
        Op::ReduceXor => operand(0).reduce_xor(),
        Op::LogicAnd => operand(0).logic_and(&operand(1)),
        Op::LogicOr => operand(0).logic_or(&operand(1)),
        Op::Select => select(&operand(0), operand(1), operand(2)),
        Op::Insert => insert(operand(0), &operand(1), position),
        Op::And | Op::Or | Op::Xor | Op::Merge | Op::Equal | Op::CaseEqual | Op::CasezEqual | Op::CasexEqual | Op::WildcardEqual => {
            return expected(op, cell(0), cell(1))
        }
    };
    given.into()
}

fn select(condition: &Value, b: Value, c: Value) -> Value {
    let is_signed = b.is_signed && c.is_signed;
    let mut arm = match condition.is_nonzero() {
        Some(true) => b,
        Some(false) => c,
        None => b.merge_unknown(&c),
    };
    arm.is_signed = is_signed;
    arm
}

fn insert(mut a: Value, b: &Value, position: u32) -> Value {
    let n = b.width.min(64) as usize;
    let low = Vector::from(b.clone());
    a.splice_bits64(position as usize, low.value[0], low.unknown[0], n);
    a
}

impl Machine {
    /// No cells yet.
    pub fn new(memory: Memory) -> Machine {
        Machine { cells: Vec::new(), memory }
    }

    /// The first word behind the last cell.
    pub fn end(&self) -> usize {
        self.cells.iter().map(|v| word_count(v.header.width)).sum()
    }

    /// 14, then 12.
    fn check(&self) -> Result<(), u8> {
        let [value, unknown] = &self.memory.arenas;
        match value.len() == unknown.len() {
            false => Err(14),
            true if self.cells.len() >= 320 => Err(12),
            true => Ok(()),
        }
    }

    /// 13 where the arenas are too short; else the word where the next cell begins.
    fn room(&self, words: usize) -> Result<usize, u8> {
        let end = self.end();
        if end + words <= self.memory.arenas[0].len() {
            Ok(end)
        } else {
            Err(13)
        }
    }

    /// Adds a vector whose planes are sound; of 1 to 4 only 4 is left.
    pub fn add_input(&mut self, v: &Vector) -> Result<(), u8> {
        self.check()?;
        if v.header.is_fill && v.header.width == 0 {
            return Err(4);
        }
        let at = self.room(v.value.len())?;
        put(&mut self.memory.arenas, at, v);
        self.cells.push(v.clone());
        Ok(())
    }

    pub fn add_step(&mut self, step: Step) -> Result<(), u8> {
        self.check()?;
        let Step { op, a, b, c } = step;
        let cells = match op {
            Op::Insert => 2,
            op => super::operands(op),
        };
        let named = [a, b, c].map(|n| n as usize);
        if named[..cells].iter().any(|n| *n >= self.cells.len()) {
            return Err(11);
        }
        let header = |i: usize| self.cells[named[i]].header;
        if op == Op::Select && (header(1).width != header(2).width || header(1).is_fill || header(2).is_fill) {
            return Err(7);
        }
        let v = result(op, |i| &self.cells[named[i]], c);
        let at = self.room(v.value.len())?;
        if self.memory.scratch.iter().any(|plane| plane.len() < v.value.len()) {
            return Err(13);
        }
        put(&mut self.memory.scratch, 0, &v);
        put(&mut self.memory.arenas, at, &v);
        self.cells.push(v);
        Ok(())
    }

    /// Every input and every step, until one is refused. The lines of each new cell are put behind the output.
    fn run(&mut self, list: &List, output: &mut String) -> Ending {
        list.inputs
            .iter()
            .try_for_each(|v| self.add_input(v))
            .map_err(|number| (number, 0))?;
        let mut done = 0;
        for step in &list.steps {
            self.add_step(*step).map_err(|number| (number, done + 1))?;
            done += 1;
            let cell = self.cells.len() - 1;
            *output += &format!("cell={cell}\nbits={}\n", digits(&self.cells[cell]));
        }
        Ok(done)
    }
}

/// How many steps were done, or a refusal's number and its step: from 1, 0 for the text or an input.
pub type Ending = Result<u32, (u8, u32)>;

/// The cells and the memory that a run leaves, its output, and how it ended.
pub struct Ran {
    pub machine: Machine,
    pub output: String,
    pub ending: Ending,
}

/// The run of a text in memory of some contents.
pub fn run(text: &[u8], memory: Memory) -> Ran {
    let mut machine = Machine::new(memory);
    let mut output = String::new();
    let ending = match List::read(text) {
        Some(list) => machine.run(&list, &mut output),
        None => Err((6, 0)),
    };
    output += &match ending {
        Ok(steps) => format!("done={steps}\n"),
        Err((number, step)) => format!("refused={number}\nstep={step}\n"),
    };
    Ran { machine, output, ending }
}

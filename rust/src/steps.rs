//! Step lists: the ops, a step, and the run of a whole list from its text.
//!
//! ```
//! use vowherunga::steps::{run, OUTPUT_BYTES};
//!
//! let list = "inputs=2\nsteps=2\nwidth=2\nkind=u\nbits=1x\nwidth=2\nkind=u\nbits=01\n\
//!     op=and\na=0\nb=1\nc=0\nop=ror\na=2\nb=0\nc=0\n";
//!
//! // Memory for the cells and for one result, as much as the program `cones` lends.
//! let (mut value, mut unknown) = (vec![0; 2048], vec![0; 2048]);
//! let (mut scratch_value, mut scratch_unknown) = (vec![0; 2048], vec![0; 2048]);
//! let mut out = Box::new([0; OUTPUT_BYTES]);
//!
//! let ran = run(list.as_bytes(), &mut value, &mut unknown, &mut scratch_value, &mut scratch_unknown, &mut out);
//! assert_eq!(ran.output, "cell=2\nbits=0x\ncell=3\nbits=x\ndone=2\n");
//! assert_eq!(ran.ending, Ok(2));
//!
//! // The cells are there as well: the last has one bit, which is x.
//! let last = ran.store.cell(3).unwrap();
//! assert_eq!(last.vector(&value, &unknown).unwrap().to_string(), "x");
//! ```
use crate::raw::store as raw;
use crate::store::Store;
use crate::{ParseError, Refusal};
use std::fmt;
use std::str::FromStr;

/// The ops of a step list. Operands are cells: a, then b, then c; c of [`Op::Insert`] is a position.
///
/// Each has a code by which the exports know it. A code is never reused and never shifted when ops come or go.
#[derive(Clone, Copy, Debug, PartialEq, Eq, Hash)]
#[repr(u8)]
pub enum Op {
    /// and: [`bitwise_and`](crate::bitwise::bitwise_and)
    And = 0,
    /// or: [`bitwise_or`](crate::bitwise::bitwise_or)
    Or = 1,
    /// xor: [`bitwise_xor`](crate::bitwise::bitwise_xor)
    Xor = 2,
    /// not: [`bitwise_not`](crate::bitwise::bitwise_not)
    Not = 3,
    /// mrg: [`merge_unknown`](crate::bitwise::merge_unknown)
    Merge = 4,
    /// rand: [`reduce_and`](crate::reduce::reduce_and)
    ReduceAnd = 5,
    /// ror: [`reduce_or`](crate::reduce::reduce_or)
    ReduceOr = 6,
    /// rxor: [`reduce_xor`](crate::reduce::reduce_xor)
    ReduceXor = 7,
    /// eq: [`is_equal`](crate::compare::is_equal)
    Equal = 8,
    /// ceq: [`case_eq`](crate::compare::case_eq)
    CaseEqual = 9,
    /// cz: [`casez_eq`](crate::compare::casez_eq)
    CasezEqual = 10,
    /// cx: [`casex_eq`](crate::compare::casex_eq)
    CasexEqual = 11,
    /// weq: [`wildcard_eq`](crate::compare::wildcard_eq)
    WildcardEqual = 12,
    /// land: [`logic_and`](crate::reduce::logic_and)
    LogicAnd = 13,
    /// lor: [`logic_or`](crate::reduce::logic_or)
    LogicOr = 14,
    /// sel: b where a is true, c where it is false, both merged where that is unknown. The arms b and c have one width and are no fills; the
    /// result is signed if both are.
    Select = 15,
    /// ins: the lowest bits of b, at most 64, put into a at position c; what would lie above a is left out. The header is that of a.
    Insert = 16,
}

impl Op {
    pub const ALL: [Op; 17] = [
        Op::And,
        Op::Or,
        Op::Xor,
        Op::Not,
        Op::Merge,
        Op::ReduceAnd,
        Op::ReduceOr,
        Op::ReduceXor,
        Op::Equal,
        Op::CaseEqual,
        Op::CasezEqual,
        Op::CasexEqual,
        Op::WildcardEqual,
        Op::LogicAnd,
        Op::LogicOr,
        Op::Select,
        Op::Insert,
    ];

    /// The number that the op has for good.
    pub fn code(self) -> u8 {
        self as u8
    }

    /// The op that has the code, if one has.
    pub fn from_code(code: u8) -> Option<Op> {
        Op::ALL.into_iter().find(|op| op.code() == code)
    }

    /// The name that a step list has for the op.
    pub fn name(self) -> &'static str {
        match self {
            Op::And => "and",
            Op::Or => "or",
            Op::Xor => "xor",
            Op::Not => "not",
            Op::Merge => "mrg",
            Op::ReduceAnd => "rand",
            Op::ReduceOr => "ror",
            Op::ReduceXor => "rxor",
            Op::Equal => "eq",
            Op::CaseEqual => "ceq",
            Op::CasezEqual => "cz",
            Op::CasexEqual => "cx",
            Op::WildcardEqual => "weq",
            Op::LogicAnd => "land",
            Op::LogicOr => "lor",
            Op::Select => "sel",
            Op::Insert => "ins",
        }
    }
}

impl fmt::Display for Op {
    fn fmt(&self, f: &mut fmt::Formatter) -> fmt::Result {
        f.pad(self.name())
    }
}

impl FromStr for Op {
    type Err = ParseError;

    /// The op that a step list calls so.
    fn from_str(name: &str) -> Result<Op, ParseError> {
        Op::ALL.into_iter().find(|op| op.name() == name).ok_or(ParseError::NotAnOp)
    }
}

/// One step of a list.
#[derive(Clone, Copy, Debug, PartialEq, Eq, Hash)]
pub struct Step {
    pub op: Op,
    pub a: u32,
    pub b: u32,
    pub c: u32,
}

/// The length of the buffer of a run, in which every output has room: 256 cells of 4,096 bits, and a refusal.
pub const OUTPUT_BYTES: usize = 1_052_436;

/// The store when the run ends, its output, and how it ended.
#[derive(Clone, Debug, PartialEq, Eq)]
pub struct Run<'a> {
    pub store: Store,
    pub output: &'a str,
    /// How many steps were done; or a refusal and the step that it is of: from 1, or 0 for the text or an input.
    pub ending: Result<u32, (Refusal, u32)>,
}

/// Runs the list of a text from an empty store, in lent arenas and scratch planes of any contents. The output has the lines `cell=` and `bits=`
/// of each step that was run, and then the ending: `done=` with their number, or `refused=` with the refusal's number and `step=`. It stands
/// at the front of `out`. The text is read whole before any step. A run that is refused at an input or a step leaves arenas, scratch and store
/// as those before it have filled them; a text that is no list changes none of them.
pub fn run<'a>(
    text: &[u8],
    arena_value: &mut [u64],
    arena_unknown: &mut [u64],
    scratch_value: &mut [u64],
    scratch_unknown: &mut [u64],
    out: &'a mut [u8; OUTPUT_BYTES],
) -> Run<'a> {
    let mut store = Store::new();
    // A pointer and a length are those of one slice, which is lent for as long as the call runs; what is lent for writing overlaps nothing.
    let r = unsafe {
        raw::vowherunga_run(
            text.as_ptr(),
            text.len(),
            arena_value.as_mut_ptr(),
            arena_value.len(),
            arena_unknown.as_mut_ptr(),
            arena_unknown.len(),
            scratch_value.as_mut_ptr(),
            scratch_value.len(),
            scratch_unknown.as_mut_ptr(),
            scratch_unknown.len(),
            &mut store.starts,
            &mut store.widths,
            &mut store.signs,
            &mut store.fills,
            out,
        )
    };
    store.count = r.count;
    let output = std::str::from_utf8(&out[..r.length]).unwrap_or_else(|e| unreachable!("the output is ASCII: {e}"));
    let ending = Refusal::of_call(r.refusal).map(|()| r.step).map_err(|refusal| (refusal, r.step));
    Run { store, output, ending }
}

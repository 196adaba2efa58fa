//! The cell store: at most [`MAX_CELLS`] vectors, numbered from 0, whose words lie one behind the other in two arenas that the caller keeps.
//!
//! A call refuses, in this order, by 14 (arenas of different length, or a store that does not agree with them), 12 (no cell is left), then for
//! an input by 1 to 4 as in [`check_vector`](crate::value::check_vector), for a step by 11 (an operand names no filled cell) and 7 (arms that
//! differ in width, or a fill), then by 13 (too few words). A refused call changes no cell and no word.
//!
//! ```
//! use vowherunga::{steps::{Op, Step}, store::{Store, Stored}, Header, Refusal};
//!
//! let (mut value, mut unknown) = ([0; 3], [0; 3]);
//! let (mut scratch_value, mut scratch_unknown) = ([0; 1], [0; 1]);
//! let plain = Header { width: 2, is_signed: false, is_fill: false };
//!
//! // 1x and 01, then both anded: 0x.
//! let Stored { answer, store } = Store::new().add_input(plain, &[0b10], &[0b01], &mut value, &mut unknown);
//! assert_eq!(answer, Ok(0));
//! let Stored { answer, store } = store.add_input(plain, &[0b01], &[0b00], &mut value, &mut unknown);
//! assert_eq!(answer, Ok(1));
//! let and = Step { op: Op::And, a: 0, b: 1, c: 0 };
//! let Stored { answer, store } = store.add_step(and, &mut value, &mut unknown, &mut scratch_value, &mut scratch_unknown);
//! assert_eq!(answer, Ok(2));
//! assert_eq!(store.cell(2).unwrap().vector(&value, &unknown).unwrap().to_string(), "0x");
//!
//! // The arenas are full; the store comes back as it was.
//! let Stored { answer, store } = store.add_step(and, &mut value, &mut unknown, &mut scratch_value, &mut scratch_unknown);
//! assert_eq!((answer, store.count()), (Err(Refusal::NoRoom), 3));
//! ```
use crate::raw::store as raw;
use crate::steps::Step;
use crate::{planes, Header, PlanesMut, Refusal, VectorRef};
use std::ops::Range;

/// How many cells a store can have.
pub const MAX_CELLS: usize = 320;

/// A cell: where its words begin in both arenas, and its header.
#[derive(Clone, Copy, Debug, Default, PartialEq, Eq, Hash)]
pub struct Cell {
    pub start: usize,
    pub header: Header,
}

impl Cell {
    /// The cell's words in either arena.
    pub fn words(self) -> Range<usize> {
        self.start..self.start.saturating_add(planes::word_count(self.header.width))
    }

    /// The cell's vector, if the arenas have all its words.
    pub fn vector<'a>(self, arena_value: &'a [u64], arena_unknown: &'a [u64]) -> Option<VectorRef<'a>> {
        Some(VectorRef {
            header: self.header,
            value: arena_value.get(self.words())?,
            unknown: arena_unknown.get(self.words())?,
        })
    }
}

/// Which cells are filled, where the words of each begin, its width and its marks. The arenas come beside it.
///
/// Stores are equal if all their places are, those that are not filled too.
// One array for each part of a cell, as the exports take a store.
#[derive(Clone, Debug, PartialEq, Eq)]
pub struct Store {
    pub(crate) starts: [usize; MAX_CELLS],
    pub(crate) widths: [u32; MAX_CELLS],
    pub(crate) signs: [bool; MAX_CELLS],
    pub(crate) fills: [bool; MAX_CELLS],
    pub(crate) count: usize,
}

/// The number of the new cell or a refusal, and the store, which comes back either way.
#[derive(Clone, Debug, PartialEq, Eq)]
#[must_use]
pub struct Stored {
    pub answer: Result<usize, Refusal>,
    pub store: Store,
}

impl Default for Store {
    fn default() -> Store {
        Store::new()
    }
}

// In each call below a pointer and a length are those of one slice, which is lent for as long as the call runs; a slice or an array that is
// lent for writing overlaps no other.
impl Store {
    /// An empty store.
    pub fn new() -> Store {
        Store::from_parts(&[Cell::default(); MAX_CELLS], 0)
    }

    /// The store that has these cells in its places, of which the first `count` are filled. Nothing is checked here: a count above
    /// [`MAX_CELLS`], or cells that do not agree with the arenas lent beside them, are refused by 14 in each call.
    pub fn from_parts(places: &[Cell; MAX_CELLS], count: usize) -> Store {
        Store {
            starts: places.map(|cell| cell.start),
            widths: places.map(|cell| cell.header.width),
            signs: places.map(|cell| cell.header.is_signed),
            fills: places.map(|cell| cell.header.is_fill),
            count,
        }
    }

    /// How many cells are filled.
    pub fn count(&self) -> usize {
        self.count
    }

    /// A filled cell by its number.
    pub fn cell(&self, number: usize) -> Option<Cell> {
        let header = Header {
            width: *self.widths.get(number)?,
            is_signed: self.signs[number],
            is_fill: self.fills[number],
        };
        let start = self.starts[number];
        (number < self.count).then_some(Cell { start, header })
    }

    /// The store after a call on its parts.
    fn stored(mut self, r: raw::CellResult) -> Stored {
        let answer = Refusal::of_call(r.refusal).map(|()| r.cell);
        if let Ok(cell) = answer {
            self.count = cell + 1;
        }
        Stored { answer, store: self }
    }

    /// Adds a vector as the next cell. Its words are copied into both arenas, behind those of the last cell; all other words stay.
    pub fn add_input(mut self, h: Header, value: &[u64], unknown: &[u64], arena_value: &mut [u64], arena_unknown: &mut [u64]) -> Stored {
        let r = unsafe {
            raw::vowherunga_add_input(
                self.count,
                &mut self.starts,
                &mut self.widths,
                &mut self.signs,
                &mut self.fills,
                h,
                value.as_ptr(),
                value.len(),
                unknown.as_ptr(),
                unknown.len(),
                arena_value.as_mut_ptr(),
                arena_value.len(),
                arena_unknown.as_mut_ptr(),
                arena_unknown.len(),
            )
        };
        self.stored(r)
    }

    /// [`Store::add_input`]
    pub fn add_vector(self, v: VectorRef, arenas: PlanesMut) -> Stored {
        self.add_input(v.header, v.value, v.unknown, arenas.value, arenas.unknown)
    }

    /// Adds the result of a step as the next cell. It is worked out at the front of the scratch planes and copied from there as an input is. An
    /// operand that the op does not use is ignored.
    pub fn add_step(
        mut self,
        step: Step,
        arena_value: &mut [u64],
        arena_unknown: &mut [u64],
        scratch_value: &mut [u64],
        scratch_unknown: &mut [u64],
    ) -> Stored {
        let r = unsafe {
            raw::vowherunga_add_step(
                self.count,
                &mut self.starts,
                &mut self.widths,
                &mut self.signs,
                &mut self.fills,
                step.op.code(),
                step.a,
                step.b,
                step.c,
                arena_value.as_mut_ptr(),
                arena_value.len(),
                arena_unknown.as_mut_ptr(),
                arena_unknown.len(),
                scratch_value.as_mut_ptr(),
                scratch_value.len(),
                scratch_unknown.as_mut_ptr(),
                scratch_unknown.len(),
            )
        };
        self.stored(r)
    }
}

//! Four-state vectors (0, 1, x, z): a safe binding of the proved library.
//!
//! A vector is a width and two planes of 64-bit words, value and unknown. Bit i is bit i mod 64 of word i div 64 of each plane: 0 is stored
//! as (0,0), 1 as (1,0), x as (0,1) and z as (1,1); bits at or above the width are 0. A plane has exactly [`planes::word_count`] words.
//! The caller keeps the planes and lends them to each call; nothing is allocated, and nothing is asked of them: whatever is handed over,
//! a call gives its result, or one [`Refusal`] and then no lent word has changed. Only the run of a whole list ([`steps::run`]), where it is
//! refused at an input or a step, keeps what its earlier inputs and steps filled.
//!
//! ```
//! use vowherunga::{bitwise, planes, reduce, value, Header, LogicBit, Narrow, Operand, Refusal, Truth, Word};
//!
//! # fn main() -> Result<(), Refusal> {
//! // A vector of 65 bits, all x.
//! let words = planes::word_count(65);
//! let (mut v, mut u) = (vec![0; words], vec![0; words]);
//! let header = value::new(65, &mut v, &mut u)?;
//! assert_eq!((header.width, header.is_signed), (65, false));
//!
//! // Its top bit becomes 1; bit 0 is still x.
//! planes::set(header.width, &mut v, &mut u, 64, LogicBit::One)?;
//! assert_eq!(planes::get(header.width, &v, &u, 64)?, LogicBit::One);
//! assert_eq!(planes::get(header.width, &v, &u, 0)?, LogicBit::X);
//!
//! // At width 64 the planes have a word too many.
//! let refused = planes::get(64, &v, &u, 0);
//! assert_eq!(refused, Err(Refusal::PlaneLength));
//! assert_eq!(refused.unwrap_err().number(), 2);
//!
//! // Anded with the number 6 of 3 bits, which is extended by 0: 00..0xx0.
//! let (mut six, mut known) = ([0], [0]);
//! let short = value::from_u64(6, 3, &mut six, &mut known)?;
//! let (mut ov, mut ou) = (vec![0; words], vec![0; words]);
//! let result = bitwise::bitwise_and(header, &v, &u, short, &six, &known, &mut ov, &mut ou)?;
//! assert_eq!((result.width, &ov[..], &ou[..]), (65, &[0, 0][..], &[6, 0][..]));
//!
//! // Whether that is true depends on the two x.
//! assert_eq!(reduce::is_nonzero(Operand::Vector(result), &ov, &ou)?, Truth::Unknown);
//! assert_eq!(reduce::is_nonzero(Operand::Real(0.5), &[], &[])?, Truth::True);
//!
//! // At most 64 bits can be held by value: checked once, no planes.
//! let x1 = Narrow::new(Header { width: 2, ..short }, 0b01, 0b10)?;
//! assert_eq!(x1.bitwise_not().bits(), Word { value: 0b00, unknown: 0b10 });
//! # Ok(())
//! # }
//! ```
//!
//! The functions take planes by their position. [`VectorRef`] and [`PlanesMut`] hold them under their names, so that a value plane is not
//! taken for an unknown one, and have each operator as a method. Equality and wildcard equality can also tell which [`Rule`] decided them.
//! The arm that a truth picks is handed back plane by plane, each a part of the caller's own slice ([`arm`]).
//!
//! Vectors can be read from sized literals such as `8'hzx` and written as such ([`literal`]). They can be kept as the cells of a [`store`], and a
//! whole list of steps on them can be run from its text ([`steps::run`]).
//!
//! The feature `reference` adds the Rust program whose behaviour the library keeps but for what was requested since, for comparisons; it needs
//! that program's source and one static library more.
pub mod arm;
mod bit;
pub mod bitwise;
pub mod compare;
pub mod literal;
mod narrow;
mod parse;
pub mod planes;
#[doc(hidden)]
pub mod raw;
pub mod real;
pub mod reduce;
mod refusal;
pub mod steps;
pub mod store;
pub mod value;
mod vector;

#[cfg(feature = "reference")]
pub mod reference;

pub use bit::LogicBit;
pub use compare::{Decision, Rule};
pub use narrow::Narrow;
pub use parse::ParseError;
pub use planes::{Word, MAX_WIDTH};
pub use reduce::Truth;
pub use refusal::Refusal;
pub use value::{Header, Operand};
pub use vector::{OperandRef, PlanesMut, VectorMut, VectorRef};

//! Step lists worked out by the reference's operators or, where document 02 departs from them, by the standard's: the list as a value, its text, a
//! strict reader, and the run. Nothing here calls the library.
mod draw;
mod list;
mod machine;

pub use draw::{Drawn, Shape};
pub use list::{keeps_known, operands, List};
pub use machine::{run, Ending, Machine, Memory, Ran};

//! Sized literals: read as an evaluator reads them that is written apart from the library, and as Icarus Verilog does; written, and read again;
//! refused. The inputs are fixed; nothing is timed.
mod damage;
mod draw;
mod evaluator;
#[path = "../generator/mod.rs"]
mod generator;
mod icarus;
mod lengths;
#[path = "../lent/mod.rs"]
mod lent;
mod read;
mod tables;
mod write;

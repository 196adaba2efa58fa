//! Which rule decided an equality or a wildcard equality, and the bit beside it: as an evaluator tells them that is written apart from the library,
//! and the bit as the comparison itself and the reference give it. The inputs are fixed; nothing is timed.
mod drawn;
mod edges;
mod evaluator;
mod exports;
#[path = "../generator/mod.rs"]
mod generator;
mod operand;
mod reals;
#[cfg(feature = "reference")]
mod reference;
mod small;
mod tables;
mod tally;

//! Every entry against the reference or, where document 02 departs from it, the standard: the answer, the header, every word of both planes, and
//! the words beside the planes; not and truth also against a form that goes bit by bit. The inputs are fixed; nothing is timed.
mod alike;
mod bitwise;
mod by_words;
mod compare;
mod constructors;
#[path = "../lent/mod.rs"]
mod lent;
mod narrow;
mod planes;
mod reduce;
mod samples;
mod standard;

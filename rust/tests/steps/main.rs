//! The store and the run of step lists, against the reference's operators or, where document 02 departs from them, the standard's, and the
//! documents' own rules. The inputs are fixed; nothing is timed.
//!
//! For a longer run the environment says how many inputs a test draws, and from which seed, not 0; at the repository's root:
//!
//!     export STEPS_COUNT=1000000 STEPS_SEED=7 CARGO_TARGET_DIR=$PWD/target/cargo
//!     cargo test --offline --locked --manifest-path rust/Cargo.toml --features reference --test steps -- --nocapture drawn_lists damaged_texts
//!
//! It holds for `drawn_lists`, `damaged_texts`, `drawn_calls`, `known_bits_are_kept` and `known_exactly_where_completions_agree`.
mod alike;
mod calls;
mod damage;
mod draws;
mod exact;
mod files;
#[path = "../lent/mod.rs"]
mod lent;
mod lists;
mod refinement;
mod shares;

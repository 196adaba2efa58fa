//! Each refusal that the entries can give, the order in which they come, and that a refused call writes nothing.
mod arrays;
#[cfg(feature = "reference")]
mod bit_by_bit;
#[path = "../lent/mod.rs"]
mod lent;
mod operators;
mod planes;
mod run;
mod store;
mod table;

use vowherunga::{LogicBit, Refusal};

/// A refusal's number; 0 is done.
fn number<A>(answer: Result<A, Refusal>) -> u8 {
    match answer {
        Ok(_) => 0,
        Err(r) => r.number(),
    }
}

#[test]
fn numbers() {
    let numbers = Refusal::ALL.map(Refusal::number);
    assert_eq!(numbers, [1, 2, 3, 4, 5, 6, 7, 11, 12, 13, 14, 15]);
    for n in 0..=u8::MAX {
        assert_eq!(Refusal::from_number(n).map(Refusal::number), numbers.contains(&n).then_some(n));
    }
    assert_eq!(LogicBit::ALL.map(LogicBit::to_code), [0, 1, 2, 3]);
    for n in 0..=u8::MAX {
        assert_eq!(LogicBit::from_code(n).to_code(), n % 4);
    }
}

//! Step lists run whole, and the same steps on a store that the caller keeps: one input of 64 bits, all 0, and then in turn and, or, xor of the
//! input with the cell before.
use crate::race::{Race, Side};
use std::hint::black_box;
use vowherunga::steps::{run, Op, Step, OUTPUT_BYTES};
use vowherunga::store::Store;
use vowherunga::Header;

const OPS: [(&str, Op); 3] = [("and", Op::And), ("or", Op::Or), ("xor", Op::Xor)];
const INPUT: Header = Header {
    width: 64,
    is_signed: false,
    is_fill: false,
};

/// The text of a list of so many steps.
fn list(steps: usize) -> String {
    let mut list = format!("inputs=1\nsteps={steps}\nwidth=64\nkind=u\nbits={}\n", "0".repeat(64));
    for step in 0..steps {
        list += &format!("op={}\na=0\nb={step}\nc=0\n", OPS[step % 3].0);
    }
    list
}

/// Arenas and scratch, as `cones` lends them.
fn memory() -> [Vec<u64>; 4] {
    [(); 4].map(|()| vec![0; 2048])
}

/// A side for each number of steps: the run of its list, parsing and output included.
pub fn listed(steps: [usize; 3]) -> Race {
    let sides = steps.map(|steps| {
        let text = list(steps);
        let mut planes = memory();
        let mut out = vec![0; OUTPUT_BYTES].into_boxed_slice();
        let side: Side = Box::new(move |calls| {
            let [av, au, sv, su] = &mut planes;
            let out: &mut [u8; OUTPUT_BYTES] = (&mut out[..]).try_into().expect("a buffer of that length");
            for _ in 0..calls {
                let ran = run(black_box(text.as_bytes()), av, au, sv, su, out);
                assert_eq!(ran.ending, Ok(steps as u32));
            }
        });
        side
    });
    Race::new(sides.into())
}

/// A side for each number of steps: the input and the steps added to an empty store.
pub fn kept(steps: [usize; 3]) -> Race {
    let sides = steps.map(|steps| {
        let mut planes = memory();
        let side: Side = Box::new(move |calls| {
            let [av, au, sv, su] = &mut planes;
            for _ in 0..calls {
                let mut store = Store::new().add_input(INPUT, black_box(&[0]), &[0], av, au).store;
                for step in 0..steps {
                    let op = OPS[step % 3].1;
                    store = store
                        .add_step(
                            Step {
                                op,
                                a: 0,
                                b: step as u32,
                                c: 0,
                            },
                            av,
                            au,
                            sv,
                            su,
                        )
                        .store;
                }
                assert_eq!(store.count(), steps + 1);
            }
        });
        side
    });
    Race::new(sides.into())
}

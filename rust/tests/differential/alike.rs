//! Comparisons of a call with the reference's, shared by the subjects.
use crate::lent::Lent;
use vowherunga::reference::draw::Rng;
use vowherunga::reference::Vector;
use vowherunga::{Header, LogicBit, Refusal};

/// What a call that writes leaves of lent copies of a vector's planes.
pub fn lend<A>(v: &Vector, call: impl FnOnce(&mut [u64], &mut [u64]) -> Result<A, Refusal>) -> (Result<A, Refusal>, Vec<u64>, Vec<u64>) {
    let (mut value, mut unknown) = (Lent::new(&v.value), Lent::new(&v.unknown));
    let answer = call(value.plane(), unknown.plane());
    (answer, value.left(), unknown.left())
}

/// A call that writes planes, whatever stood in them, and gives a header as the expected vector has them. `of` says what of.
pub fn makes_alike(
    rng: &mut Rng,
    of: impl Fn() -> String,
    ours: impl FnOnce(&mut [u64], &mut [u64]) -> Result<Header, Refusal>,
    theirs: impl Into<Vector>,
) {
    let want = theirs.into();
    let stood = rng.unmasked(want.header.width);
    let (answer, value, unknown) = lend(&stood, ours);
    assert_eq!(answer, Ok(want.header), "{}", of());
    for (plane, got, want) in [("value", value, want.value), ("unknown", unknown, want.unknown)] {
        assert!(
            got == want,
            "{plane} plane of {}: word {:x?}, not {:x?}",
            of(),
            first(&got, &want),
            first(&want, &got)
        );
    }
}

/// The first word that another plane has not.
fn first(plane: &[u64], other: &[u64]) -> Option<(usize, u64)> {
    let i = plane.iter().zip(other).position(|(a, b)| a != b)?;
    Some((i, plane[i]))
}

/// How many answers were each bit, by its code.
#[derive(Default)]
pub struct Tally([usize; 4]);

impl Tally {
    /// Sees that an answer is the expected one, an unsigned vector of one bit, and counts it.
    pub fn compare(&mut self, ours: Result<LogicBit, Refusal>, theirs: impl Into<Vector>, of: impl Fn() -> String) {
        let want = theirs.into();
        assert_eq!(want.header, Vector::plain(1, vec![], vec![]).header, "{}", of());
        assert_eq!(ours, Ok(LogicBit::from_code(want.code(0))), "{}", of());
        self.0[usize::from(want.code(0))] += 1;
    }

    /// Sees that there were at least so many calls, and at least a hundred with each of the given answers and none with another.
    pub fn expect(&self, calls: usize, answers: &[LogicBit]) {
        assert!(self.0.iter().sum::<usize>() >= calls, "{:?}, not {calls} calls", self.0);
        for bit in LogicBit::ALL {
            let n = self.0[usize::from(bit.to_code())];
            let wanted = answers.contains(&bit);
            assert!(wanted && n >= 100 || !wanted && n == 0, "{n} answers {bit:?}");
        }
    }
}

//! How many steps had operands that document 02, point 2 touches, op by op.
use vowherunga::reference::standard::{is_touched, Shares, OPS};
use vowherunga::steps::Step;
use vowherunga::Header;

#[derive(Default)]
pub struct StepShares([Shares; OPS.len()]);

impl StepShares {
    /// Counts a step that was run; `header` gives that of a cell.
    pub fn count(&mut self, step: Step, header: impl Fn(u32) -> Header) {
        if let Some(k) = OPS.into_iter().position(|op| op == step.op) {
            self.0[k].count(is_touched(step.op, header(step.a), header(step.b)));
        }
    }

    /// Sees that of each op the touched and the untouched steps are a tenth at least.
    pub fn expect(&self) {
        OPS.into_iter().zip(&self.0).for_each(|(op, shares)| shares.expect(op.name()));
    }
}

//! What a state says by itself of an until, with so many minutes left.

use crate::bound::Bound;
use crate::until::Until;

#[derive(Clone, Copy, PartialEq, Eq)]
pub enum Verdict {
    Makes,
    Fails,
    /// The arrows decide.
    GoesOn,
}

impl Until<'_> {
    /// With "at least" and "exactly", Q comes too early while minutes are left: only P helps then.
    pub fn verdict(&self, state: usize, left: usize) -> Verdict {
        let q_counts = self.bound == Bound::AtMost || left == 0;
        match (self.p[state] == 1, self.q[state] == 1) {
            (_, true) if q_counts => Verdict::Makes,
            (true, _) => Verdict::GoesOn,
            (false, _) => Verdict::Fails,
        }
    }

    /// E looks for a run that makes it, A for one that fails it.
    pub fn looked_for(&self) -> Verdict {
        match self.every {
            true => Verdict::Fails,
            false => Verdict::Makes,
        }
    }
}

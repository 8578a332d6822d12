//! Both untils, those bounded by "at most" and "at least" as fixpoints over pairs of a state and a minute, the minute
//! capped at c + 1; for "exactly" see `exactly`.
//!
//! E: Q and bound met, or P and some next. A: Q and bound met, or P and every next.
//! A step never lowers the minute, so the minutes are finished one by one from c + 1 down.
//!
//! "a run counts only if its moments pass every number": E is a least fixpoint, since row 19 lets every way go on to a run
//! that counts. For A see `every_run`.

use crate::bound::Bound;
use crate::chart::{Arrow, NO_END};
use crate::leaving::Leaving;
use crate::members::Members;
use crate::rule::{Node, A_UNTIL};

pub struct Until<'a> {
    pub leaving: &'a Leaving,
    pub every: bool,
    pub bound: Bound,
    pub c: usize,
    pub p: &'a [u8],
    pub q: &'a [u8],
}

impl<'a> Until<'a> {
    /// The rows are those of the node's operands.
    pub fn of(leaving: &'a Leaving, node: &Node, p: &'a [u8], q: &'a [u8]) -> Until<'a> {
        Until { leaving, every: node.operation == A_UNTIL, bound: Bound::of(node), c: usize::from(node.c), p, q }
    }

    /// Marks the states at which the until holds.
    pub fn settle(&self, row: &mut [u8]) {
        match self.bound {
            Bound::AtMost | Bound::AtLeast => self.settle_pairs(row),
            Bound::Exactly => self.settle_exactly(row),
        }
    }

    /// Marks the states whose pair with minute 0 is in the fixpoint.
    fn settle_pairs(&self, row: &mut [u8]) {
        let mut members = Members::none(row.len(), self.last());
        for x in (0..=self.last()).rev() {
            members.open(x);
            self.begin(x, &mut members);
            match self.every {
                true => while self.grow_every(x, &mut members) {},
                false => while self.grow_some(x, &mut members) {},
            }
        }
        for (state, mark) in row.iter_mut().enumerate() {
            *mark = u8::from(members.has(state, 0));
        }
    }

    /// The minute that stands for c + 1 or more.
    pub fn last(&self) -> usize {
        self.c + 1
    }

    /// Q and bound met.
    fn begin(&self, x: usize, members: &mut Members) {
        let met = self.bound.is_met(x, self.c);
        for state in (0..self.q.len()).filter(|&state| met && self.q[state] == 1) {
            members.add(state, x);
        }
    }

    /// P and some next; says whether a pair was added, for then others may follow within the minute.
    fn grow_some(&self, x: usize, members: &mut Members) -> bool {
        let mut grown = false;
        for state in 0..self.p.len() {
            if self.p[state] == 1 && !members.has(state, x) && self.some_next(state, x, members) {
                members.add(state, x);
                grown = true;
            }
        }
        grown
    }

    fn some_next(&self, state: usize, x: usize, members: &Members) -> bool {
        self.leaving.state(state).iter().any(|arrow| {
            let (lo, hi) = self.window(arrow, x);
            members.within(usize::from(arrow.end), lo, hi) > 0
        })
    }

    /// The minutes at which the arrow can end when taken at minute x.
    pub fn window(&self, arrow: &Arrow, x: usize) -> (usize, usize) {
        let capped = |minutes: u16| self.last().min(x + usize::from(minutes));
        let hi = if arrow.most == NO_END { self.last() } else { capped(arrow.most) };
        (capped(arrow.fewest), hi)
    }
}

//! A-until at one minute: "every run", of those that count.
//!
//! On a run that counts time passes again and again. Over steps in which it does, the pairs are a least fixpoint: each
//! brings the run nearer to where the until is met. Over steps of 0 minutes they are a greatest one: a stay in no time
//! for ever doesn't count, so the until needn't be met on it.
//! Nothing is met only because no run counts: from every state one does, by row 19.

use crate::chart::Arrow;
use crate::members::Members;
use crate::until::Until;

impl Until<'_> {
    /// P and every next, those in 0 minutes being members or added now; says whether a pair was added, for then others
    /// may follow at c + 1, where steps that take time stay too.
    pub fn grow_every(&self, x: usize, members: &mut Members) -> bool {
        let joins = |state| self.p[state] == 1 && !members.has(state, x) && self.every_later(state, x, members);
        let mut joining: Vec<bool> = (0..self.p.len()).map(joins).collect();
        while self.drop_some(x, members, &mut joining) {}
        for state in (0..joining.len()).filter(|&state| joining[state]) {
            members.add(state, x);
        }
        joining.contains(&true)
    }

    /// Whether every next by a duration above 0 is a member.
    fn every_later(&self, state: usize, x: usize, members: &Members) -> bool {
        self.leaving.state(state).iter().filter_map(taking_time).all(|arrow| {
            let (lo, hi) = self.window(&arrow, x);
            members.within(usize::from(arrow.end), lo, hi) as usize == hi - lo + 1
        })
    }

    /// Drops the states that an arrow of 0 minutes leads away from members and joining states; says whether there was
    /// one.
    fn drop_some(&self, x: usize, members: &Members, joining: &mut [bool]) -> bool {
        let mut dropped = false;
        for state in 0..joining.len() {
            let stays = |end: usize| joining[end] || members.has(end, x);
            let mut arrows = self.leaving.state(state).iter().filter(|arrow| arrow.fewest == 0);
            if joining[state] && !arrows.all(|arrow| stays(usize::from(arrow.end))) {
                joining[state] = false;
                dropped = true;
            }
        }
        dropped
    }
}

/// The arrow with its durations above 0 alone, if it has some.
fn taking_time(arrow: &Arrow) -> Option<Arrow> {
    (arrow.most > 0).then(|| Arrow { fewest: arrow.fewest.max(1), ..*arrow })
}

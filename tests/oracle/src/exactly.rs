//! "Exactly c" by the runs from each state: at which moments up to c they can be where.
//!
//! A run meets the until at its first position where Q holds at moment c, P having held before. It fails where it comes to
//! another position without P, and where it passes c; row 19 lets it go on from there to a run that counts. A run that
//! counts passes every number, so one that does neither is none: a stay in no time for ever at moment c needn't meet Q.

use crate::chart::Arrow;
use crate::moment_set::MomentSet;
use crate::until::Until;

/// The positions that runs from one state can come to, P holding and the until not being met at all before.
struct Came<'a> {
    until: &'a Until<'a>,
    /// For each state the moments up to c.
    at: Vec<MomentSet>,
}

impl Until<'_> {
    /// Marks the states from which some run meets the until, or for A none fails it.
    pub fn settle_exactly(&self, row: &mut [u8]) {
        for (state, mark) in row.iter_mut().enumerate() {
            let came = Came::from(self, state);
            *mark = u8::from(match self.every {
                true => !came.fails(),
                false => came.meets(),
            });
        }
    }
}

impl<'a> Came<'a> {
    fn from(until: &'a Until<'a>, start: usize) -> Came<'a> {
        let mut came = Came { until, at: vec![MomentSet::NONE; until.leaving.state_count()] };
        came.at[start] = MomentSet::START;
        let mut new = vec![start];
        while let Some(state) = new.pop() {
            came.go_on(state, &mut new);
        }
        came
    }

    /// Takes every arrow from the state; whatever comes to more moments is new.
    fn go_on(&mut self, state: usize, new: &mut Vec<usize>) {
        let open = self.open(state);
        for arrow in self.until.leaving.state(state) {
            let reached = open.after(arrow.fewest.into(), arrow.most.into()).up_to(self.until.c);
            let end = usize::from(arrow.end);
            if reached.without(self.at[end]) != MomentSet::NONE {
                self.at[end] = self.at[end].or(reached);
                new.push(end);
            }
        }
    }

    fn states(&self) -> std::ops::Range<usize> {
        0..self.at.len()
    }

    /// When the until is not met at the state.
    fn unmet(&self, state: usize) -> MomentSet {
        match self.until.q[state] == 1 {
            true => self.at[state].without(MomentSet::START.later(self.until.c)),
            false => self.at[state],
        }
    }

    /// When a run that is at the state goes on with the until open.
    fn open(&self, state: usize) -> MomentSet {
        match self.until.p[state] == 1 {
            true => self.unmet(state),
            false => MomentSet::NONE,
        }
    }

    fn meets(&self) -> bool {
        self.states().any(|state| self.unmet(state) != self.at[state])
    }

    fn fails(&self) -> bool {
        self.states().any(|state| self.unmet(state) != self.open(state) || self.passes_c(state))
    }

    /// Whether some step from the state, the until being open, ends at a moment above c. The word for "no end" is above
    /// every c.
    fn passes_c(&self, state: usize) -> bool {
        let passes = |last: usize, arrow: &Arrow| last + usize::from(arrow.most) > self.until.c;
        let arrows = self.until.leaving.state(state);
        self.open(state).last().is_some_and(|last| arrows.iter().any(|arrow| passes(last, arrow)))
    }
}

//! The list of states for one number of minutes left: for E those with a run that makes the until, for A those with a
//! run that fails it, of the runs that count. So for both, one arrow with one duration that leads to a listed state is
//! enough.

use crate::chart::Arrow;
use crate::until::Until;
use crate::verdict::Verdict;

/// One entry a state.
pub type Listed = Vec<bool>;

/// The states that are listed by themselves; of those that go on, the ones that `known` names.
pub fn begin(until: &Until<'_>, left: usize, known: impl Fn(usize) -> bool) -> Listed {
    let listed = |state| match until.verdict(state, left) {
        Verdict::GoesOn => known(state),
        verdict => verdict == until.looked_for(),
    };
    (0..until.leaving.state_count()).map(listed).collect()
}

/// Lists the states that go on by such an arrow to a listed one, until nothing changes.
pub fn follow(until: &Until<'_>, left: usize, list: &mut Listed, such: impl Fn(&Arrow) -> bool) {
    let mut changed = true;
    while changed {
        changed = false;
        for state in 0..list.len() {
            let leads = |arrow: &Arrow| such(arrow) && list[usize::from(arrow.end)];
            let goes_on = !list[state] && until.verdict(state, left) == Verdict::GoesOn;
            if goes_on && until.leaving.state(state).iter().any(leads) {
                list[state] = true;
                changed = true;
            }
        }
    }
}

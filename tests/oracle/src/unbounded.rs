//! "At least" with nothing left to wait: the until with no bound.

use crate::listed::{begin, follow, Listed};
use crate::reach::reached;
use crate::until::Until;
use crate::verdict::Verdict;

/// E by plain reaching; A fails by coming to a state with neither operand, or to where a run can wait for ever.
pub fn unbounded(until: &Until<'_>) -> Listed {
    let mut list = begin(until, 0, |state| until.every && waits_for_ever(until, state));
    follow(until, 0, &mut list, |_| true);
    list
}

/// Whether an arrow with most above 0 leads from this waiting state, and waiting states lead back to it: the moments of
/// a run that keeps to this loop can pass every number. On a loop without such an arrow no run counts.
fn waits_for_ever(until: &Until<'_>, state: usize) -> bool {
    let waits = |state: u16| until.verdict(usize::from(state), 0) == Verdict::GoesOn;
    let leads_back = |end: u16| reached(until.leaving, usize::from(end), |arrow| waits(arrow.start))[state];
    until.leaving.state(state).iter().any(|arrow| arrow.most > 0 && leads_back(arrow.end))
}

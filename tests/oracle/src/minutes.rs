//! An until by hand: one list of states after the other, for 0 minutes left up to c.

use crate::bound::Bound;
use crate::chart::Arrow;
use crate::listed::{begin, follow, Listed};
use crate::unbounded::unbounded;
use crate::until::Until;

/// Marks the states that E lists, or that A doesn't list, with all c minutes left.
pub fn by_minutes(until: &Until<'_>, row: &mut [u8]) {
    let mut lists: Vec<Listed> = Vec::new();
    for left in 0..=until.c {
        let list = minute(until, left, &lists);
        lists.push(list);
    }
    for (mark, &listed) in row.iter_mut().zip(&lists[until.c]) {
        *mark = u8::from(listed != until.every);
    }
}

/// The list for so many minutes left, from the lists for fewer. What takes 0 minutes stays within this list. A run that
/// stays there for ever doesn't count, so nothing is listed for that.
fn minute(until: &Until<'_>, left: usize, fewer: &[Listed]) -> Listed {
    if until.bound == Bound::AtLeast && left == 0 {
        return unbounded(until);
    }
    let arrows = |state| until.leaving.state(state).iter();
    let mut list = begin(until, left, |state| arrows(state).any(|arrow| leads_later(until, left, arrow, fewer)));
    follow(until, left, &mut list, |arrow| arrow.fewest == 0);
    list
}

/// Whether the arrow leads to a listed state by a duration above 0. All durations beyond the minutes left are one case,
/// and "no end" lies among them.
fn leads_later(until: &Until<'_>, left: usize, arrow: &Arrow, fewer: &[Listed]) -> bool {
    let capped = |minutes: u16| usize::from(minutes).min(left + 1);
    let end = usize::from(arrow.end);
    (capped(arrow.fewest).max(1)..=capped(arrow.most)).any(|duration| match (left.checked_sub(duration), until.bound) {
        (Some(then), _) => fewer[then][end],
        (None, Bound::AtLeast) => fewer[0][end],
        // Too late for every run that goes on: it fails.
        (None, Bound::AtMost | Bound::Exactly) => until.every,
    })
}

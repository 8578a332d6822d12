//! Longest times over the strongly connected components of the states that may be left.

use super::arrows::{Arrow, ArrowLists};
use super::components::{Component, Components};

/// The time of a state from which no end is reached.
pub const NONE: i64 = -1;
/// Above every sum of minutes along different states; a sum of 256 of these still fits.
pub const UNBOUNDED: i64 = 1 << 40;

/// An arrow's most minutes.
pub fn most(arrow: &Arrow) -> i64 {
    if arrow.most == u16::MAX {
        UNBOUNDED
    } else {
        i64::from(arrow.most)
    }
}

/// The tables of the search, kept from one search to the next.
pub struct Longest {
    components: Components,
    /// Whether each state has an arrow to itself on which time can pass.
    looped: Vec<bool>,
    /// At first the minutes with which a run may end at each state, afterwards the greatest minutes.
    pub minutes: Vec<i64>,
}

impl Longest {
    pub fn new(out: &ArrowLists) -> Longest {
        let n = out.states();
        let looped = |s: usize| out.of(s).iter().any(|arrow| arrow.most > 0 && usize::from(arrow.other) == s);
        let looped = (0..n).map(looped).collect();
        Longest { components: Components::new(n), looped, minutes: vec![NONE; n] }
    }

    /// Only states in `go` are left.
    pub fn search(&mut self, out: &ArrowLists, go: impl Fn(usize) -> bool, weight: impl Fn(&Arrow) -> i64) {
        let (minutes, looped) = (&mut self.minutes, &self.looped);
        let follow = |arrow: &Arrow| go(usize::from(arrow.other));
        self.components.each(out, &go, follow, |component| match *component.members {
            [state] if !looped[usize::from(state)] => {
                let s = usize::from(state);
                minutes[s] = minutes[s].max(onward(out.of(s), minutes, &weight));
            }
            ref members => {
                let all = shared(&component, out, minutes, &weight);
                members.iter().for_each(|&s| minutes[usize::from(s)] = all);
            }
        });
    }
}

/// The greatest minutes of every member. If time can pass within the component, a way to an end makes them unbounded; if
/// not, one member has as much as the others. Every member is entered from a member, so their own ends are looked at too.
fn shared(component: &Component, out: &ArrowLists, minutes: &[i64], weight: impl Fn(&Arrow) -> i64) -> i64 {
    let mut lists = component.members.iter().map(|&s| out.of(usize::from(s)));
    match component.passes(out) {
        true if lists.any(|arrows| leads_on(arrows, minutes)) => UNBOUNDED,
        true => NONE,
        false => lists.fold(NONE, |all, arrows| all.max(onward(arrows, minutes, &weight))),
    }
}

/// The greatest minutes by one of the arrows.
fn onward(arrows: &[Arrow], minutes: &[i64], weight: impl Fn(&Arrow) -> i64) -> i64 {
    let mut greatest = NONE;
    for arrow in arrows {
        let after = minutes[usize::from(arrow.other)];
        if after > NONE {
            greatest = greatest.max(after + weight(arrow));
        }
    }
    greatest
}

/// Whether an arrow leads to a state from which an end is reached, or that is one.
fn leads_on(arrows: &[Arrow], minutes: &[i64]) -> bool {
    arrows.iter().any(|arrow| minutes[usize::from(arrow.other)] > NONE)
}

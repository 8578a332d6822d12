//! States that may wait for ever: those on a loop of waiting states on which time can pass.

use super::arrows::{Arrow, ArrowLists};
use super::components::Components;

/// The tables of the search, kept from one search to the next.
pub struct Waiting {
    components: Components,
    pub for_ever: Vec<bool>,
}

impl Waiting {
    pub fn new(n: usize) -> Waiting {
        Waiting { components: Components::new(n), for_ever: vec![false; n] }
    }

    pub fn search(&mut self, out: &ArrowLists, waits: impl Fn(usize) -> bool) {
        let for_ever = &mut self.for_ever;
        for_ever.fill(false);
        let follow = |arrow: &Arrow| waits(usize::from(arrow.other));
        self.components.each(out, &waits, follow, |component| {
            if component.passes(out) {
                component.members.iter().for_each(|&s| for_ever[usize::from(s)] = true);
            }
        });
    }
}

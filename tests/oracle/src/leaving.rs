//! The arrows of an accepted chart, those of one start side by side.

use crate::chart::{arrows, state_count, Arrow};

pub struct Leaving {
    arrows: Vec<Arrow>,
    first: Vec<usize>,
}

impl Leaving {
    pub fn of(chart: &[u8]) -> Leaving {
        let mut arrows: Vec<Arrow> = arrows(chart).collect();
        arrows.sort_unstable_by_key(|arrow| arrow.start);
        let before = |state| arrows.partition_point(|arrow| usize::from(arrow.start) < state);
        let first = (0..=state_count(chart)).map(before).collect();
        Leaving { arrows, first }
    }

    pub fn state_count(&self) -> usize {
        self.first.len() - 1
    }

    pub fn state(&self, state: usize) -> &[Arrow] {
        &self.arrows[self.first[state]..self.first[state + 1]]
    }
}

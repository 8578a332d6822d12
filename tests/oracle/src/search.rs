//! The fewest steps of a true reason: pairs of a state and a minute, visited layer by layer and each once.
//!
//! The minute is capped at c + 1, as where the untils are settled: more minutes change nothing. Whatever pair a reason
//! ends at, row 19 lets it go on to a run that counts.

use crate::asked::Asked;
use crate::bound::Bound;
use crate::chart::Arrow;
use crate::position::Position;
use crate::until::Until;
use crate::unvisited::Unvisited;

pub struct Search<'a> {
    until: &'a Until<'a>,
    /// The minutes of a state and one above them, which is never visited.
    width: usize,
    unvisited: Unvisited,
    /// For each visited pair but the first, one that is a step before it.
    before: Vec<u32>,
}

/// Where a search came to an end.
pub struct Found<'a> {
    search: Search<'a>,
    end: u32,
    pub steps: usize,
}

/// None if no run of at most so many steps is a true reason.
pub fn search<'a>(asked: &'a Asked<'a>, most: usize) -> Option<Found<'a>> {
    let (n, width) = (asked.until.leaving.state_count(), asked.until.last() + 2);
    let unvisited = Unvisited::below(n * width);
    let search = Search { until: &asked.until, width, unvisited, before: vec![0; n * width] };
    search.from(asked.state, most)
}

impl<'a> Search<'a> {
    fn from(mut self, state: usize, most: usize) -> Option<Found<'a>> {
        let first = self.pair(state, 0);
        self.unvisited.visit(first);
        let mut layer = vec![first as u32];
        let mut steps = 0;
        loop {
            if let Some(&end) = layer.iter().find(|&&pair| self.ends(pair)) {
                return Some(Found { search: self, end, steps });
            }
            if layer.is_empty() || steps == most {
                return None;
            }
            layer = self.next_layer(&layer);
            steps += 1;
        }
    }

    fn pair(&self, state: usize, minute: usize) -> usize {
        state * self.width + minute
    }

    fn state(&self, pair: u32) -> usize {
        pair as usize / self.width
    }

    fn minute(&self, pair: u32) -> usize {
        pair as usize % self.width
    }

    /// Do P and Q hold, and is the minute above c?
    fn here(&self, pair: u32) -> (bool, bool, bool) {
        let state = self.state(pair);
        (self.until.p[state] == 1, self.until.q[state] == 1, self.minute(pair) > self.until.c)
    }

    /// E: the until is met. A: it can't be met any more.
    fn ends(&self, pair: u32) -> bool {
        let (p, q, above) = self.here(pair);
        match self.until.every {
            true => above || !p && !q,
            false => q && self.until.bound.is_met(self.minute(pair), self.until.c),
        }
    }

    /// Whether a reason may have steps after this pair.
    fn goes_on(&self, pair: u32) -> bool {
        let (p, q, above) = self.here(pair);
        match (self.until.every, self.until.bound) {
            (true, _) => p && !q && !above,
            (false, Bound::AtLeast) => p,
            (false, Bound::AtMost | Bound::Exactly) => p && !above,
        }
    }

    fn next_layer(&mut self, layer: &[u32]) -> Vec<u32> {
        let mut next = Vec::new();
        for &pair in layer {
            let arrows = match self.goes_on(pair) {
                true => self.until.leaving.state(self.state(pair)),
                false => &[],
            };
            arrows.iter().for_each(|arrow| self.take(pair, arrow, &mut next));
        }
        next
    }

    /// Visits what is unvisited among the minutes at which the arrow can end.
    fn take(&mut self, pair: u32, arrow: &Arrow, next: &mut Vec<u32>) {
        let (lo, hi) = self.until.window(arrow, self.minute(pair));
        let end = usize::from(arrow.end);
        let mut reached = self.unvisited.next(self.pair(end, lo));
        while reached <= self.pair(end, hi) {
            self.unvisited.visit(reached);
            self.before[reached] = pair;
            next.push(reached as u32);
            reached = self.unvisited.next(reached + 1);
        }
    }

    /// A duration in the slot of some arrow that leads from the one pair to the other; at the cap the least of them.
    fn duration(&self, from: u32, to: u32) -> u32 {
        let (at, then) = (self.minute(from), self.minute(to));
        let leads = |arrow: &&Arrow| {
            let (lo, hi) = self.until.window(arrow, at);
            usize::from(arrow.end) == self.state(to) && (lo..=hi).contains(&then)
        };
        let arrow = self.until.leaving.state(self.state(from)).iter().find(leads).expect("the search took an arrow");
        (then - at).max(usize::from(arrow.fewest)) as u32
    }
}

impl Found<'_> {
    /// The run, from its end back.
    pub fn run(&self) -> Vec<Position> {
        let search = &self.search;
        let position = |pair, duration| Position { state: search.state(pair) as u16, duration };
        let mut run = vec![position(self.end, 0)];
        let mut pair = self.end;
        for _ in 0..self.steps {
            let before = search.before[pair as usize];
            run.push(position(before, search.duration(before, pair)));
            pair = before;
        }
        run.reverse();
        run
    }
}

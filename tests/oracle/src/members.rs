//! A set of pairs of a state and a minute, filled from the highest minute down.

/// Row x holds, for each state, how many members it has at minute x or later; so a window of minutes is counted
/// with one subtraction, however long the slot is.
pub struct Members {
    n: usize,
    counts: Vec<u32>,
}

impl Members {
    /// Minutes 0 to `last`, and an empty row above them.
    pub fn none(n: usize, last: usize) -> Members {
        Members { n, counts: vec![0; (last + 2) * n] }
    }

    /// Minute x starts without members of its own.
    pub fn open(&mut self, x: usize) {
        let above = (x + 1) * self.n;
        self.counts.copy_within(above..above + self.n, x * self.n);
    }

    /// Adds a pair that isn't in the set; x is the minute opened last.
    pub fn add(&mut self, state: usize, x: usize) {
        self.counts[x * self.n + state] += 1;
    }

    pub fn has(&self, state: usize, x: usize) -> bool {
        self.within(state, x, x) == 1
    }

    /// The number of members at the state in minutes lo to hi.
    pub fn within(&self, state: usize, lo: usize, hi: usize) -> u32 {
        self.counts[lo * self.n + state] - self.counts[(hi + 1) * self.n + state]
    }
}

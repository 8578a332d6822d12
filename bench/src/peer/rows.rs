//! What counting asks of a table that has a row of states for each number of minutes left.

use super::slots::Slot;

pub trait Rows {
    /// The rows that follow have the states in `always`, and by arrows those in `go`.
    fn choose(&mut self, always: impl Fn(usize) -> bool, go: impl Fn(usize) -> bool);
    /// Row 0 by arrows of any duration.
    fn reach(&mut self);
    /// Row 0 by arrows of any duration, and by going on for ever.
    fn reach_or_wait(&mut self);
    /// The row of so many minutes left, from those before it.
    fn fill<S: Slot>(&mut self, left: usize);
    /// Whether the row has the state.
    fn has(&self, row: usize, state: usize) -> bool;
}

/// A row begins as the one below it, since a number tells the last row up to here that has the state.
pub fn begin(numbers: &mut [u32], n: usize, left: usize) {
    let here = left * n;
    if left == 0 {
        numbers[..n].fill(0);
    } else {
        numbers.copy_within(here - n..here, here);
    }
}

//! Shortest times to a goal, by Dijkstra's search backwards from all goals at once, up to a limit.

use super::arrows::ArrowLists;
use std::cmp::Reverse;
use std::collections::BinaryHeap;

/// The time of a state from which no goal is reached within the limit.
pub const FAR: u32 = u32::MAX;

/// The tables of the search, kept from one search to the next.
pub struct Shortest {
    /// The least minutes from each state to a goal.
    pub minutes: Vec<u32>,
    /// Minutes and state in one number: bounds, and so the minutes kept, fit 16 bits.
    heap: BinaryHeap<Reverse<u32>>,
}

impl Shortest {
    pub fn new(n: usize) -> Shortest {
        Shortest { minutes: vec![FAR; n], heap: BinaryHeap::with_capacity(n) }
    }

    /// Only states in `go` are left on the way to a goal.
    pub fn search(&mut self, into: &ArrowLists, goal: impl Fn(usize) -> bool, go: impl Fn(usize) -> bool, limit: u32) {
        for (s, minutes) in self.minutes.iter_mut().enumerate() {
            *minutes = if goal(s) { 0 } else { FAR };
        }
        // Goals need no place in the heap: nothing comes before them.
        for s in 0..into.states() {
            if goal(s) {
                self.relax(s, 0, into, &go, limit);
            }
        }
        while let Some(Reverse(key)) = self.heap.pop() {
            let (minutes, state) = (key >> 16, (key & 0xFFFF) as usize);
            if minutes == self.minutes[state] {
                self.relax(state, minutes, into, &go, limit);
            }
        }
    }

    /// Follows the arrows into `state` backwards; times past the limit are not kept.
    fn relax(&mut self, state: usize, minutes: u32, into: &ArrowLists, go: &impl Fn(usize) -> bool, limit: u32) {
        for arrow in into.of(state) {
            let start = usize::from(arrow.other);
            let total = minutes + u32::from(arrow.fewest);
            if total <= limit && total < self.minutes[start] && go(start) {
                self.minutes[start] = total;
                self.heap.push(Reverse(total << 16 | u32::from(arrow.other)));
            }
        }
    }
}

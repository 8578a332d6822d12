//! Which states can be reached from which, and by that which arrows lie on a loop. The chart has passed rows 1 to 9.

use crate::chart::Arrow;
use crate::leaving::Leaving;

/// The states that can be reached from this one by such arrows, itself among them.
pub fn reached(leaving: &Leaving, from: usize, such: impl Fn(&Arrow) -> bool) -> Vec<bool> {
    let mut reached = vec![false; leaving.state_count()];
    let mut open = vec![from];
    while let Some(state) = open.pop() {
        if !std::mem::replace(&mut reached[state], true) {
            let arrows = leaving.state(state).iter().filter(|arrow| such(arrow));
            open.extend(arrows.map(|arrow| usize::from(arrow.end)));
        }
    }
    reached
}

/// The same from every state.
pub struct Reach(Vec<Vec<bool>>);

impl Reach {
    pub fn by(leaving: &Leaving, such: impl Fn(&Arrow) -> bool) -> Reach {
        Reach((0..leaving.state_count()).map(|from| reached(leaving, from, &such)).collect())
    }

    pub fn leads(&self, from: usize, to: usize) -> bool {
        self.0[from][to]
    }

    /// The starts of those among such arrows that lie on a loop: the arrow's end leads back to its start.
    pub fn starts_on_loops(&self, such_arrows: impl Iterator<Item = Arrow>) -> Vec<usize> {
        let start_and_end = such_arrows.map(|arrow| (usize::from(arrow.start), usize::from(arrow.end)));
        start_and_end.filter(|&(start, end)| self.leads(end, start)).map(|(start, _)| start).collect()
    }
}

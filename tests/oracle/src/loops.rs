//! The loops on which time can pass: those "holding an arrow with most above 0".

use crate::chart::{arrows, state_count};
use crate::leaving::Leaving;
use crate::reach::Reach;

pub struct TimedLoops {
    reach: Reach,
    /// Where the arrows with most above 0 start that lie on a loop.
    starts: Vec<usize>,
}

impl TimedLoops {
    pub fn of(chart: &[u8]) -> TimedLoops {
        let reach = Reach::by(&Leaving::of(chart), |_| true);
        let starts = reach.starts_on_loops(arrows(chart).filter(|arrow| arrow.most > 0));
        TimedLoops { reach, starts }
    }

    /// Being on such a loop counts as reaching it.
    pub fn can_be_reached(&self, from: usize) -> bool {
        self.starts.iter().any(|&start| self.reach.leads(from, start))
    }
}

/// The lowest state "from which no loop holding an arrow with most above 0 can be reached".
pub fn lowest_without_timed_loop(chart: &[u8]) -> Option<usize> {
    let timed_loops = TimedLoops::of(chart);
    (0..state_count(chart)).find(|&state| !timed_loops.can_be_reached(state))
}

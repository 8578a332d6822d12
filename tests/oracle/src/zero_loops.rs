//! Which loops in no time a chart has: what compares the programs counts the charts it met by that. Bytes that rows 1 to
//! 9 refuse have none.

use crate::chart::{arrows, Arrow};
use crate::leaving::Leaving;
use crate::loops::TimedLoops;
use crate::reach::Reach;
use crate::refusals::{first_met, Case};

/// A loop of arrows whose fewest are all 0.
pub fn has_loop_of_fewest_0(chart: &[u8]) -> bool {
    passes(chart) && !starts_on_loops(chart, |arrow| arrow.fewest == 0).is_empty()
}

/// A loop of arrows that are all 0 to 0, from which a loop holding an arrow with most above 0 can be reached.
pub fn has_leavable_loop_of_0_to_0(chart: &[u8]) -> bool {
    passes(chart) && {
        let timed_loops = TimedLoops::of(chart);
        starts_on_loops(chart, |arrow| arrow.most == 0).into_iter().any(|start| timed_loops.can_be_reached(start))
    }
}

fn passes(chart: &[u8]) -> bool {
    !first_met(&Case::chart(chart), &[1..=9]).refused()
}

/// Where such arrows start that lie on a loop of such arrows.
fn starts_on_loops(chart: &[u8], such: impl Fn(&Arrow) -> bool) -> Vec<usize> {
    let reach = Reach::by(&Leaving::of(chart), &such);
    reach.starts_on_loops(arrows(chart).filter(such))
}

//! States from which time can't pass for ever: which they are, and how a chart gets rid of them. Loops that can be taken in no
//! time stay.

use crate::bytes::chart::{arrow, Chart, NO_END};
use crate::random::rng::Rng;

/// The most arrows of a chart.
const ARROWS: usize = 2_048;

/// The states from which no loop holding an arrow with most above 0 can be reached.
pub fn of(chart: &Chart) -> Vec<usize> {
    let mut free = vec![true; chart.states()];
    loop {
        // Who is still free comes to such an arrow, from its end to another, and so on.
        let next = coming_to_time(chart, &free);
        if next == free {
            return (0..free.len()).filter(|&s| !free[s]).collect();
        }
        free = next;
    }
}

/// The states that come to an arrow with most above 0 that ends in one of those.
fn coming_to_time(chart: &Chart, ends: &[bool]) -> Vec<bool> {
    let mut coming = vec![false; ends.len()];
    let mut changed = true;
    while changed {
        changed = false;
        for a in &chart.arrows {
            let (start, end) = (a.start as usize, a.end as usize);
            if !coming[start] && (coming[end] || a.most > 0 && ends[end]) {
                coming[start] = true;
                changed = true;
            }
        }
    }
    coming
}

/// Makes the chart pass 19, one such state after the other.
pub fn let_time_pass(rng: &mut Rng, chart: &mut Chart) {
    loop {
        let locked = of(chart);
        if locked.is_empty() {
            return;
        }
        let state = rng.pick(&locked);
        let free: Vec<usize> = (0..chart.states()).filter(|s| !locked.contains(s)).collect();
        if free.is_empty() || chart.arrows.len() == ARROWS || rng.percent(50) {
            raise_on_a_loop(rng, chart, state);
        } else {
            let most = rng.pick(&[0, 0, 1, 4]);
            chart.arrows.push(arrow(state, rng.pick(&free), 0, most));
        }
    }
}

/// Every way from such a state leads round a loop of 0 to 0: one arrow there may take longer.
fn raise_on_a_loop(rng: &mut Rng, chart: &mut Chart, state: usize) {
    let (mut way, mut left) = (Vec::new(), vec![None; chart.states()]);
    let mut at = state;
    while left[at].is_none() {
        left[at] = Some(way.len());
        let out: Vec<usize> = (0..chart.arrows.len()).filter(|&i| chart.arrows[i].start as usize == at).collect();
        way.push(rng.pick(&out));
        at = chart.arrows[way[way.len() - 1]].end as usize;
    }
    let on_loop = &way[left[at].unwrap_or(0)..];
    chart.arrows[rng.pick(on_loop)].most = rng.pick(&[1, 1, 2, 5, NO_END]);
}

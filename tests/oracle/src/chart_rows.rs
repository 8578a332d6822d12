//! Rows 1 to 9 and 19: the chart.

use crate::bytes::{states_real_length, version};
use crate::chart::{arrow_count, arrows, state_count};
use crate::loops::lowest_without_timed_loop;
use crate::refusals::{at_0, Case};

pub fn under_9_bytes(case: &Case<'_>) -> Option<usize> {
    at_0(case.chart.len() < 9)
}

pub fn version_not_1(case: &Case<'_>) -> Option<usize> {
    at_0(version(case.chart) != 1)
}

pub fn stated_length_not_real(case: &Case<'_>) -> Option<usize> {
    at_0(!states_real_length(case.chart))
}

pub fn n_outside(case: &Case<'_>) -> Option<usize> {
    at_0(!(1..=256).contains(&state_count(case.chart)))
}

pub fn m_outside(case: &Case<'_>) -> Option<usize> {
    at_0(!(1..=2048).contains(&arrow_count(case.chart)))
}

pub fn length_not_from_counts(case: &Case<'_>) -> Option<usize> {
    at_0(case.chart.len() != 9 + 2 * state_count(case.chart) + 8 * arrow_count(case.chart))
}

pub fn arrow_names_no_state(case: &Case<'_>) -> Option<usize> {
    let n = state_count(case.chart);
    arrows(case.chart).position(|arrow| usize::from(arrow.start) >= n || usize::from(arrow.end) >= n)
}

pub fn slot_wrong(case: &Case<'_>) -> Option<usize> {
    arrows(case.chart).position(|arrow| arrow.fewest > arrow.most || arrow.fewest == 65_535)
}

pub fn state_without_arrow(case: &Case<'_>) -> Option<usize> {
    let mut left = vec![false; state_count(case.chart)];
    for arrow in arrows(case.chart) {
        if let Some(start) = left.get_mut(usize::from(arrow.start)) {
            *start = true;
        }
    }
    left.iter().position(|&has_arrow| !has_arrow)
}

pub fn no_timed_loop_reached(case: &Case<'_>) -> Option<usize> {
    lowest_without_timed_loop(case.chart)
}

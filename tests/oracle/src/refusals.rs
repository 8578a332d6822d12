//! The paper's table of refusals, one entry a row, and the search for the first row that is met.

use crate::answers::Outcome;
use crate::{chart_rows as chart, map_rows as map, rule_rows as rule};
use std::ops::RangeInclusive;

/// Everything a row may ask about. `chart` is the detail chart where a map is checked.
#[derive(Clone, Copy, Default)]
pub struct Case<'a> {
    pub chart: &'a [u8],
    pub rule: &'a [u8],
    pub marks: usize,
    pub scratch: usize,
    /// The scratch numbers that the call asks for.
    pub scratch_asked: usize,
    pub overview: &'a [u8],
    pub map: &'a [u8],
}

impl<'a> Case<'a> {
    pub fn chart(chart: &'a [u8]) -> Case<'a> {
        Case { chart, ..Case::default() }
    }

    pub fn rule(rule: &'a [u8]) -> Case<'a> {
        Case { rule, ..Case::default() }
    }
}

/// The lowest offender if the condition is met; 0 where the row names none.
type Offender = fn(&Case<'_>) -> Option<usize>;

const TABLE: [(u32, Offender); 24] = [
    (1, chart::under_9_bytes),
    (2, chart::version_not_1),
    (3, chart::stated_length_not_real),
    (4, chart::n_outside),
    (5, chart::m_outside),
    (6, chart::length_not_from_counts),
    (7, chart::arrow_names_no_state),
    (8, chart::slot_wrong),
    (9, chart::state_without_arrow),
    (10, rule::under_7_bytes),
    (11, rule::version_not_1),
    (12, rule::stated_length_not_real),
    (13, rule::k_outside_or_length),
    (14, rule::form_wrong),
    (15, rule::operand_not_lower),
    (16, rule::not_used_once),
    (17, rule::marks_short),
    (18, rule::scratch_short),
    (19, chart::no_timed_loop_reached),
    (20, map::map_wrong),
    (21, map::entry_names_no_state),
    (22, map::labels_differ),
    (23, map::arrow_not_covered),
    (63, rule::bound_above_255),
];

/// The rows that judge a chart by itself.
pub const CHART_ALONE: [RangeInclusive<u32>; 2] = [1..=9, 19..=19];

/// The first row met among those asked for: the ranges in their order, each in number order.
pub fn first_met(case: &Case<'_>, asked: &[RangeInclusive<u32>]) -> Outcome {
    let rows = asked.iter().flat_map(|range| TABLE.iter().filter(|(number, _)| range.contains(number)));
    for &(number, offender) in rows {
        if let Some(place) = offender(case) {
            return Outcome::at(number, place);
        }
    }
    Outcome::SUCCESS
}

/// For rows that name no offender.
pub fn at_0(met: bool) -> Option<usize> {
    met.then_some(0)
}

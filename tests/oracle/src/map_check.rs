//! Map check: does the overview cover the detail?

use crate::answers::Outcome;
use crate::entry::OVERVIEW;
use crate::refusals::{first_met, Case, CHART_ALONE};

pub fn map_check(detail: &[u8], overview: &[u8], map: &[u8]) -> Outcome {
    let of_detail = first_met(&Case::chart(detail), &CHART_ALONE);
    if of_detail.refused() {
        return of_detail;
    }
    let of_overview = first_met(&Case::chart(overview), &CHART_ALONE);
    if of_overview.refused() {
        return Outcome { entry: OVERVIEW, ..of_overview };
    }
    let case = Case { overview, map, ..Case::chart(detail) };
    first_met(&case, &[20..=23])
}

//! Rows 20 to 23: the map between two accepted charts.

use crate::bytes::{states_real_length, version, word_at};
use crate::chart::{arrows, label_word, state_count, Arrow};
use crate::refusals::{at_0, Case};

fn overview_state(map: &[u8], detail_state: usize) -> u16 {
    word_at(map, 7 + 2 * detail_state)
}

pub fn map_wrong(case: &Case<'_>) -> Option<usize> {
    let count = usize::from(word_at(case.map, 5));
    at_0(
        case.map.len() < 7
            || version(case.map) != 1
            || !states_real_length(case.map)
            || case.map.len() != 7 + 2 * count
            || count != state_count(case.chart),
    )
}

pub fn entry_names_no_state(case: &Case<'_>) -> Option<usize> {
    let n = state_count(case.overview);
    (0..state_count(case.chart)).find(|&d| usize::from(overview_state(case.map, d)) >= n)
}

pub fn labels_differ(case: &Case<'_>) -> Option<usize> {
    (0..state_count(case.chart)).find(|&d| {
        let named = usize::from(overview_state(case.map, d));
        label_word(case.chart, d) != label_word(case.overview, named)
    })
}

pub fn arrow_not_covered(case: &Case<'_>) -> Option<usize> {
    let covers: Vec<Arrow> = arrows(case.overview).collect();
    arrows(case.chart).position(|arrow| {
        let mapped = Arrow {
            start: overview_state(case.map, usize::from(arrow.start)),
            end: overview_state(case.map, usize::from(arrow.end)),
            ..arrow
        };
        !covers.iter().any(|cover| covered_by(&mapped, cover))
    })
}

/// "No end" is the greatest most there is, so plain comparison also says that only "no end" contains it.
fn covered_by(arrow: &Arrow, cover: &Arrow) -> bool {
    cover.start == arrow.start && cover.end == arrow.end && cover.fewest <= arrow.fewest && arrow.most <= cover.most
}

//! Durations that no field of a chart can state.

use crate::make::{chart, label, rule, NO_END};
use oracle::check;

/// 65,536 minutes are among "no end".
#[test]
fn no_end_passes_the_greatest_bound() {
    for (most, mark) in [(65_534, 1), (NO_END, 0)] {
        let chart = chart(&[0, 2], &[[0, 1, 0, most], [1, 0, 1, 1]]);
        let mut marks = [7; 6];
        let nodes = [(0, 0, 0, 0, 0), label(1), (6, 1, 0, 1, 65_535)];
        assert_eq!(check(&chart, &rule(&nodes), &mut marks, &mut [0; 8]).number, 0);
        assert_eq!(marks[4..], [mark, 1]);
    }
}

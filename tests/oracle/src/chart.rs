//! The fields of a chart.

use crate::bytes::word_at;

/// This most means every duration from the fewest up.
pub const NO_END: u16 = 65_535;

#[derive(Clone, Copy)]
pub struct Arrow {
    pub start: u16,
    pub end: u16,
    pub fewest: u16,
    pub most: u16,
}

pub fn state_count(chart: &[u8]) -> usize {
    usize::from(word_at(chart, 5))
}

pub fn arrow_count(chart: &[u8]) -> usize {
    usize::from(word_at(chart, 7))
}

pub fn label_word(chart: &[u8], state: usize) -> u16 {
    word_at(chart, 9 + 2 * state)
}

/// The arrows in the chart's order.
pub fn arrows(chart: &[u8]) -> impl Iterator<Item = Arrow> + '_ {
    let first = first_arrow(chart);
    (0..arrow_count(chart)).map(move |i| arrow_at(chart, first + 8 * i))
}

/// The arrow of that number; None past the last one.
pub fn arrow(chart: &[u8], number: usize) -> Option<Arrow> {
    (number < arrow_count(chart)).then(|| arrow_at(chart, first_arrow(chart) + 8 * number))
}

fn first_arrow(chart: &[u8]) -> usize {
    9 + 2 * state_count(chart)
}

fn arrow_at(chart: &[u8], at: usize) -> Arrow {
    Arrow {
        start: word_at(chart, at),
        end: word_at(chart, at + 2),
        fewest: word_at(chart, at + 4),
        most: word_at(chart, at + 6),
    }
}

//! The third entry of an outcome: which paper was wrong.

pub const NONE: u32 = 0;
pub const CHART_OR_DETAIL: u32 = 1;
pub const OVERVIEW: u32 = 2;
pub const RULE: u32 = 3;
pub const MAP: u32 = 4;
pub const A_BUFFER: u32 = 5;

/// The entry that a row carries. A chart's rows carry the overview's where that is the chart that is judged.
pub fn of_row(number: u32) -> u32 {
    match number {
        1..=9 | 19 | 23 => CHART_OR_DETAIL,
        10..=16 | 60 | 63..=65 => RULE,
        20..=22 => MAP,
        17 | 18 | 61 | 62 | 66 => A_BUFFER,
        _ => NONE,
    }
}

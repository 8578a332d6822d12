//! Count: check's marks by a way to follow by hand.

use crate::answers::Outcome;
use crate::fill::{fill, Way};
use crate::minutes::by_minutes;

pub fn count(chart: &[u8], rule: &[u8], marks: &mut [u8], scratch: &mut [u32]) -> Outcome {
    let rows = [1..=16, 63..=63, 17..=19];
    fill(&Way { rows: &rows, scratch: 256, until: by_minutes }, chart, rule, marks, scratch)
}

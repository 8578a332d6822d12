//! What the ways to the marks share: the tests, then the scratch, then the marks.

use crate::answers::Outcome;
use crate::chart::state_count;
use crate::refusals::{first_met, Case};
use crate::settle::{settle_all, SettleUntil};
use std::ops::RangeInclusive;

/// What a way to the marks has of its own.
pub struct Way<'a> {
    /// The rows it tests, in its order.
    pub rows: &'a [RangeInclusive<u32>],
    /// The scratch numbers it asks for, per state.
    pub scratch: usize,
    pub until: SettleUntil,
}

/// The scratch asked for ends as 0 after acceptance and after refusal 19 alone.
pub fn fill(way: &Way<'_>, chart: &[u8], rule: &[u8], marks: &mut [u8], scratch: &mut [u32]) -> Outcome {
    let scratch_asked = way.scratch * state_count(chart);
    let case = Case { chart, rule, marks: marks.len(), scratch: scratch.len(), scratch_asked, ..Case::default() };
    let outcome = first_met(&case, way.rows);
    if !outcome.refused() || outcome.number == 19 {
        scratch[..scratch_asked].fill(0);
    }
    if !outcome.refused() {
        settle_all(chart, rule, way.until, marks);
    }
    outcome
}

//! Check: a rule against a chart.

use crate::answers::Outcome;
use crate::fill::{fill, Way};
use crate::rule::{nodes, EXACTLY};
use crate::settle::SettleUntil;

pub const BY_PAIRS: SettleUntil = |until, row| until.settle(row);

pub fn check(chart: &[u8], rule: &[u8], marks: &mut [u8], scratch: &mut [u32]) -> Outcome {
    fill(&Way { rows: &[1..=19], scratch: scratch_per_state(rule), until: BY_PAIRS }, chart, rule, marks, scratch)
}

/// "With kind 3 check wants 256 × n": one such node is enough, anywhere in the rule and whatever its c.
fn scratch_per_state(rule: &[u8]) -> usize {
    match nodes(rule).any(|node| node.bound_kind == EXACTLY) {
        true => 256,
        false => 4,
    }
}

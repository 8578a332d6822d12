//! What the desk program prints, and the same by the other way to the marks.

use crate::answers::Outcome;
use crate::chart::state_count;
use crate::check::check;
use crate::count::count;
use crate::rule::node_count;

/// One byte more than the longest accepted chart, and the same for a rule.
pub const CHART_READ: usize = 16_906;
pub const RULE_READ: usize = 520;

/// What the program lends, whatever the rule.
const SCRATCH: usize = 65_536;

pub fn refused_line(outcome: Outcome) -> String {
    let Outcome { number, place, entry } = outcome;
    format!("refused {number} at {place} {entry}\n")
}

/// A way to the marks, with chart, rule, marks and scratch.
type Call = fn(&[u8], &[u8], &mut [u8], &mut [u32]) -> Outcome;

/// The whole output for these bytes.
pub fn listing(chart: &[u8], rule: &[u8]) -> String {
    listing_by(check, &mut vec![0; SCRATCH], chart, rule)
}

pub fn counted_listing(chart: &[u8], rule: &[u8]) -> String {
    listing_by(count, &mut vec![0; SCRATCH], chart, rule)
}

fn listing_by(call: Call, scratch: &mut [u32], chart: &[u8], rule: &[u8]) -> String {
    let mut marks = [2u8; 64 * 256];
    let outcome = call(chart, rule, &mut marks, scratch);
    if outcome.refused() {
        return refused_line(outcome);
    }
    let (n, k) = (state_count(chart), node_count(rule));
    let mut text = format!("states {n} nodes {k}\n");
    for (t, row) in marks.chunks(n).take(k).enumerate() {
        let digits: String = row.iter().map(|mark| mark.to_string()).collect();
        text.push_str(&format!("{t} {digits}\n"));
    }
    text
}

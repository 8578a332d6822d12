//! Inputs of exact bounds: rules of 64 nodes whose 31 untils are exact, each beside the same rule with "at most", where a
//! state with Q is made at once, and with "at least", where as with "exactly" it isn't while minutes are left.

use crate::counted::name;
use crate::nodes::{EXACTLY, MOST_EXACT, SOME_RUN};

/// Those of count and a random one; and one on which every minute comes along every run, so that A is marked at times.
pub const CHARTS: [&str; 6] = ["random", "parts", "parts-short", "parts-wide", "parts-minute", "instant"];
pub const UNTILS: [&str; 3] = ["e", "a", "both"];

/// A chart, and rules that differ in the kind of their bounds alone.
pub struct Row {
    pub chart: &'static str,
    pub exact: String,
    pub most: String,
    pub least: String,
}

pub fn rows() -> Vec<Row> {
    let mut rows = Vec::new();
    for chart in CHARTS {
        rows.extend(UNTILS.map(|untils| row(chart, untils)));
    }
    rows
}

fn row(chart: &'static str, untils: &str) -> Row {
    let rule = |kind: &str| name(&format!("{untils}-{kind}"), MOST_EXACT);
    Row { chart, exact: rule("exact"), most: rule("most"), least: rule("least") }
}

/// The rule with every other until's bound made exact, and the lower byte of it kept.
pub fn made_exact(mut rule: Vec<u8>) -> Vec<u8> {
    let untils = rule[7..].chunks_exact_mut(8).filter(|node| node[0] >= SOME_RUN);
    for node in untils.step_by(2) {
        (node[1], node[6]) = (EXACTLY, 0);
    }
    rule
}

//! Inputs of show: a chart, a rule that is one until over two labels, and the state to ask for.

use crate::bytes::{self, Node};
use crate::ladder::{ladder, minute_ladder, Ladder};
use crate::nodes::{all_runs, label, some_run, AT_LEAST, AT_MOST, EXACTLY};
use crate::ring::ring;

/// Chart and rule of each row; the rule's number is that of the fewest steps of a run from the state. "At most" has no such
/// run of 256 steps on 256 states: one that comes to a state twice can leave out what lies between. An exact bound of
/// 255 has none either where every step takes time.
pub const ROWS: [(&str, &str); 12] = [
    ("ladder-1", "show-e-most-1"),
    ("ladder-30", "show-e-most-30"),
    ("ladder-255", "show-e-most-255"),
    ("minute-ladder-1", "show-e-exact-1"),
    ("minute-ladder-30", "show-e-exact-30"),
    ("minute-ladder-255", "show-e-exact-255"),
    ("ring", "show-e-least-1"),
    ("ring", "show-e-least-30"),
    ("ring", "show-e-least-256"),
    ("ring", "show-a-most-1"),
    ("ring", "show-a-most-30"),
    ("ring", "show-a-most-256"),
];

pub struct Shown {
    pub chart: Vec<u8>,
    pub rule: Vec<u8>,
    pub node: usize,
    pub state: usize,
    pub steps: usize,
}

/// The input of that row; no such row gives none.
pub fn input(chart: &str, rule: &str) -> Option<Shown> {
    if !ROWS.contains(&(chart, rule)) {
        return None;
    }
    let (until, steps) = rule.rsplit_once('-')?;
    let steps = steps.parse().ok()?;
    let (chart, state, until) = match until {
        "show-e-most" => on_ladder(ladder(steps), AT_MOST),
        "show-e-exact" => on_ladder(minute_ladder(steps), EXACTLY),
        _ => on_ring(until, steps)?,
    };
    let nodes = [label(0), label(1), until];
    Some(Shown { chart, rule: bytes::rule(&nodes), node: nodes.len() - 1, state, steps })
}

fn on_ladder(ladder: Ladder, kind: u8) -> (Vec<u8>, usize, Node) {
    (ladder.chart, ladder.foot, some_run(0, 1, kind, ladder.minutes))
}

/// The bound is such that fewer steps can't meet it, or pass it.
fn on_ring(until: &str, steps: usize) -> Option<(Vec<u8>, usize, Node)> {
    let ring = ring();
    let until = match until {
        "show-e-least" => some_run(0, 1, AT_LEAST, ring.to_a_goal(steps)?),
        "show-a-most" => all_runs(0, 1, AT_MOST, ring.before_a_goal(steps)? - 1),
        _ => return None,
    };
    Some((ring.chart, ring.start, until))
}

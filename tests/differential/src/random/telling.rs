//! Rules of one until, bent towards marks that have a run to be shown.

use crate::bytes::chart::Chart;
use crate::bytes::rule::{plain, Node, A, AT_MOST, E, LABEL, NOT, TRUE};
use crate::random::rng::Rng;
use crate::random::trees;

pub fn random(rng: &mut Rng, chart: &Chart) -> Vec<Node> {
    let mut rule = trees::single(rng, chart);
    if rule[1].operation != NOT && rng.percent(50) {
        rule[0] = plain(TRUE, 0, 0);
    }
    let last = rule.len() - 1;
    let until = &mut rule[last];
    mostly_at_most(rng, until);
    match (until.operation, until.kind) {
        (E, AT_MOST) => until.c = until.c.saturating_add(rng.below(10) as u16),
        _ if rng.percent(50) => until.c /= 2,
        _ => {}
    }
    rule
}

/// For A only "at most" has runs that are shown.
pub fn mostly_at_most(rng: &mut Rng, until: &mut Node) {
    if until.operation == A && rng.percent(80) {
        until.kind = AT_MOST;
    }
}

/// Whether an operand of such a rule holds with these labels.
fn holds(rule: &[Node], t: u16, labels: u16) -> bool {
    let Node { operation, a, .. } = rule[t as usize];
    match operation {
        LABEL => labels >> a & 1 == 1,
        NOT => !holds(rule, a, labels),
        _ => true,
    }
}

/// Where the until isn't met at once, if such a state is found.
pub fn open_state(rng: &mut Rng, chart: &Chart, rule: &[Node]) -> Option<usize> {
    let Node { a, b, .. } = rule[rule.len() - 1];
    let open = |&s: &usize| holds(rule, a, chart.labels[s]) && !holds(rule, b, chart.labels[s]);
    (0..6).map(|_| rng.below(chart.states())).find(open)
}

//! What a run can be asked for: a marked E-until, or an unmarked A-until bounded by "at most", at a state.

use crate::chart::state_count;
use crate::check::BY_PAIRS;
use crate::leaving::Leaving;
use crate::refusals::{first_met, Case};
use crate::rule::{node_count, nodes, AT_MOST, A_UNTIL, E_UNTIL};
use crate::settle::settle_all;
use crate::until::Until;

/// The run starts at the state and shows why the until holds there, or for A why it doesn't.
pub struct Asked<'a> {
    pub until: Until<'a>,
    pub state: usize,
}

impl<'a> Asked<'a> {
    /// None where the node or the state is out of range or they are no such mark; the marks are those of the rule.
    pub fn of(leaving: &'a Leaving, rule: &[u8], marks: &'a [u8], node: usize, state: usize) -> Option<Asked<'a>> {
        let asked_of = nodes(rule).nth(node)?;
        let n = leaving.state_count();
        let row = |t: usize| &marks[t * n..][..n];
        let marked = *row(node).get(state)? == 1;
        let such = match (asked_of.operation, asked_of.bound_kind) {
            (E_UNTIL, _) => marked,
            (A_UNTIL, AT_MOST) => !marked,
            _ => false,
        };
        such.then(|| {
            let (p, q) = (row(usize::from(asked_of.a)), row(usize::from(asked_of.b)));
            Asked { until: Until::of(leaving, &asked_of, p, q), state }
        })
    }
}

/// Settles the marks for an answer that needs them and no lent buffer; None where chart or rule is refused, too.
pub fn with_asked<T>(
    chart: &[u8],
    rule: &[u8],
    node: usize,
    state: usize,
    answer: impl FnOnce(&Asked<'_>) -> T,
) -> Option<T> {
    if first_met(&Case { rule, ..Case::chart(chart) }, &[1..=16, 19..=19]).refused() {
        return None;
    }
    let mut marks = vec![0; node_count(rule) * state_count(chart)];
    settle_all(chart, rule, BY_PAIRS, &mut marks);
    let leaving = Leaving::of(chart);
    Asked::of(&leaving, rule, &marks, node, state).map(|asked| answer(&asked))
}

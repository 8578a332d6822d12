//! Kind of rule, from two answers for each node in number order.

use crate::answers::{Kind, KindAnswer};
use crate::refusals::{first_met, Case};
use crate::rule::{nodes, Node, A_UNTIL, E_UNTIL, LABEL, NOT, TRUE};

/// Is it of the all-runs kind, is it of the some-run kind?
type Kinds = (bool, bool);

pub fn kind_of_rule(rule: &[u8]) -> KindAnswer {
    let outcome = first_met(&Case::rule(rule), &[10..=16]);
    let kind = match outcome.refused() {
        true => Kind::Neither,
        false => kind_of_last(rule),
    };
    KindAnswer { outcome, kind }
}

fn kind_of_last(rule: &[u8]) -> Kind {
    let mut settled: Vec<Kinds> = Vec::new();
    for node in nodes(rule) {
        let kinds = kinds_of(&node, &settled);
        settled.push(kinds);
    }
    match settled.last() {
        Some((true, true)) => Kind::Both,
        Some((true, false)) => Kind::AllRuns,
        Some((false, true)) => Kind::SomeRun,
        _ => Kind::Neither,
    }
}

fn kinds_of(node: &Node, settled: &[Kinds]) -> Kinds {
    let all_runs = node.operands().all(|operand| settled[operand].0);
    let some_run = node.operands().all(|operand| settled[operand].1);
    match node.operation {
        TRUE | LABEL => (true, true),
        NOT => (some_run, all_runs),
        E_UNTIL => (false, some_run),
        A_UNTIL => (all_runs, false),
        _ => (all_runs, some_run),
    }
}

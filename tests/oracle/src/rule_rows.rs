//! Rows 10 to 18 and 63: the rule, and the room lent for its marks.

use crate::bytes::{states_real_length, version};
use crate::chart::state_count;
use crate::refusals::{at_0, Case};
use crate::rule::{node_count, nodes, Node, AT_LEAST, AT_MOST, A_UNTIL, EXACTLY, LABEL, TRUE};

pub fn under_7_bytes(case: &Case<'_>) -> Option<usize> {
    at_0(case.rule.len() < 7)
}

pub fn version_not_1(case: &Case<'_>) -> Option<usize> {
    at_0(version(case.rule) != 1)
}

pub fn stated_length_not_real(case: &Case<'_>) -> Option<usize> {
    at_0(!states_real_length(case.rule))
}

pub fn k_outside_or_length(case: &Case<'_>) -> Option<usize> {
    let k = node_count(case.rule);
    at_0(!(1..=64).contains(&k) || case.rule.len() != 7 + 8 * k)
}

pub fn form_wrong(case: &Case<'_>) -> Option<usize> {
    nodes(case.rule).position(|node| !form_right(&node))
}

fn form_right(node: &Node) -> bool {
    let kind_right = match node.is_until() {
        true => bound_right(node),
        false => node.bound_kind == 0,
    };
    let a_right = match node.operation {
        TRUE => node.a == 0,
        LABEL => node.a <= 15,
        _ => true,
    };
    let b_right = node.operand_count() == 2 || node.b == 0;
    let c_right = node.is_until() || node.c == 0;
    node.operation <= A_UNTIL && kind_right && a_right && b_right && c_right
}

/// "14 takes kind 3 with c up to 255 only."
fn bound_right(node: &Node) -> bool {
    match node.bound_kind {
        AT_MOST | AT_LEAST => true,
        EXACTLY => node.c <= 255,
        _ => false,
    }
}

pub fn operand_not_lower(case: &Case<'_>) -> Option<usize> {
    nodes(case.rule).enumerate().position(|(t, node)| node.operands().any(|operand| operand >= t))
}

/// The last node needs no test of its own: no node lies above it to name it.
pub fn not_used_once(case: &Case<'_>) -> Option<usize> {
    let mut uses = vec![0u32; node_count(case.rule).saturating_sub(1)];
    for operand in nodes(case.rule).flat_map(|node| node.operands()) {
        if let Some(count) = uses.get_mut(operand) {
            *count += 1;
        }
    }
    uses.iter().position(|&count| count != 1)
}

/// A node without a bound has c = 0: row 14 has seen to it.
pub fn bound_above_255(case: &Case<'_>) -> Option<usize> {
    nodes(case.rule).position(|node| node.c > 255)
}

pub fn marks_short(case: &Case<'_>) -> Option<usize> {
    at_0(case.marks < node_count(case.rule) * state_count(case.chart))
}

pub fn scratch_short(case: &Case<'_>) -> Option<usize> {
    at_0(case.scratch < case.scratch_asked)
}

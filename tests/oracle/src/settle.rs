//! The marks of every node, in number order: operands are lower, so their rows stand already.

use crate::chart::{label_word, state_count};
use crate::leaving::Leaving;
use crate::rule::{nodes, Node, AND, LABEL, NOT, TRUE};
use crate::until::Until;

/// Marks the states at which an until holds.
pub type SettleUntil = fn(&Until<'_>, &mut [u8]);

/// Fills the first k × n bytes; chart and rule are accepted and the table is long enough.
pub fn settle_all(chart: &[u8], rule: &[u8], until: SettleUntil, marks: &mut [u8]) {
    let n = state_count(chart);
    let leaving = Leaving::of(chart);
    for (t, node) in nodes(rule).enumerate() {
        let (lower, rest) = marks.split_at_mut(t * n);
        let operand = |t: u16| &lower[usize::from(t) * n..][..n];
        match node.is_until() {
            true => until(&Until::of(&leaving, &node, operand(node.a), operand(node.b)), &mut rest[..n]),
            false => settle_plain(chart, &node, operand, &mut rest[..n]),
        }
    }
}

/// A node that no arrow matters to.
fn settle_plain<'a>(chart: &[u8], node: &Node, operand: impl Fn(u16) -> &'a [u8], row: &mut [u8]) {
    let mut each = |holds: &dyn Fn(usize) -> bool| {
        row.iter_mut().enumerate().for_each(|(state, mark)| *mark = u8::from(holds(state)));
    };
    match node.operation {
        TRUE => each(&|_| true),
        LABEL => each(&|state| label_word(chart, state) >> node.a & 1 == 1),
        NOT => each(&|state| operand(node.a)[state] == 0),
        AND => each(&|state| operand(node.a)[state] == 1 && operand(node.b)[state] == 1),
        _ => each(&|state| operand(node.a)[state] == 1 || operand(node.b)[state] == 1),
    }
}

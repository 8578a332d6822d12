//! Rows 10 to 16 of the refusal table, each with the neighbour that passes.

use crate::bytes::rule::{self, node, plain, Node, A, AND, E, EXACTLY, LABEL, NOT, OR, TRUE};
use crate::cases::case::Case;
use crate::named::charts::{resized, with_first, List, NO_UNTIL};
use crate::named::expected::{accepted_or, add, check, count, just_true, short, show, write, Expected};

/// What count answers where check answers this: 63 too, for a bound above 255.
fn counted(rule: &[u8], of_check: Expected) -> Expected {
    let mut nodes = rule.get(7..).unwrap_or(&[]).chunks_exact(8);
    match nodes.position(|node| node[6] > 0) {
        Some(node) => of_check.then(Expected::Outcome(63, node as u32, 3)),
        None => of_check,
    }
}

/// A rule in check, in count and in show over Short, in kind of rule and in write.
fn rule_row(list: &mut List, name: &str, rule: Vec<u8>, number: u32, place: u32) {
    let told = || accepted_or(number, place, 3);
    let scratch = rule::check_scratch(&rule::nodes(&rule), 3);
    let as_check = check(short().bytes(), rule.clone(), 64 * 3, scratch);
    add(list, &format!("{name}, check"), as_check, told());
    let as_count = count(short().bytes(), rule.clone(), 64 * 3, 256 * 3);
    add(list, &format!("{name}, count"), as_count, counted(&rule, told()));
    let as_show = show((short().bytes(), rule.clone()), 64 * 3, 257 * 3, [0, 0], 6);
    add(list, &format!("{name}, show"), as_show, told().then(NO_UNTIL));
    add(list, &format!("{name}, kind"), Case::Kind { rule: rule.clone() }, told());
    add(list, &format!("{name}, write"), write(rule.clone(), 532), told());
    // The output is looked at last.
    let unlent = told().then(Expected::Outcome(66, 0, 5));
    add(list, &format!("{name}, write, output empty"), write(rule, 0), unlent);
}

fn rule_frame(list: &mut List) {
    let three = rule::bytes(&[plain(TRUE, 0, 0), plain(LABEL, 2, 0), node(A, 1, 0, 1, 13)]);
    let single = rule::bytes(&just_true());
    rule_row(list, "row 10: empty rule", vec![], 10, 0);
    rule_row(list, "row 10: 6 bytes", resized(single.clone(), 6, true), 10, 0);
    rule_row(list, "row 10 passed: 7 bytes of 15", resized(single.clone(), 7, false), 12, 0);
    rule_row(list, "row 10 passed: 15 bytes", single.clone(), 0, 0);
    rule_row(list, "row 11: first byte 00", with_first(three.clone(), 0), 11, 0);
    rule_row(list, "row 11: first byte 02", with_first(three.clone(), 2), 11, 0);
    rule_row(list, "row 11 passed: first byte 01", three.clone(), 0, 0);
    rule_row(list, "row 12: 31 stated, 30 lent", resized(three.clone(), 30, false), 12, 0);
    rule_row(list, "row 12: 31 stated, 32 lent", resized(three.clone(), 32, false), 12, 0);
    rule_row(list, "row 12 passed: 31 stated, 31 lent", three, 0, 0);
    rule_row(list, "row 13: k = 0", rule::bytes(&[]), 13, 0);
    rule_row(list, "row 13: k = 1, 16 bytes", resized(single.clone(), 16, true), 13, 0);
    rule_row(list, "row 13: k = 1, 14 bytes", resized(single, 14, true), 13, 0);
    rule_row(list, "row 13: k = 65", rule::bytes(&nots(65)), 13, 0);
    rule_row(list, "row 13 passed: k = 64", rule::bytes(&nots(64)), 0, 0);
}

/// A chain of k nodes: true, then not after not.
pub fn nots(k: usize) -> Vec<Node> {
    let mut nodes = just_true();
    nodes.extend((1..k).map(|t| plain(NOT, t - 1, 0)));
    nodes
}

/// A rule that ends with `last` over as many true nodes as it has operands, and the number of that node.
fn ended_by(last: Node) -> (Vec<Node>, u32) {
    let mut nodes = vec![plain(TRUE, 0, 0); last.operands()];
    nodes.push(last);
    let place = nodes.len() as u32 - 1;
    (nodes, place)
}

fn form(list: &mut List, name: &str, last: Node, number: u32) {
    let (nodes, place) = ended_by(last);
    let place = if number == 0 { 0 } else { place };
    rule_row(list, name, rule::bytes(&nodes), number, place);
}

/// The right form of each operation.
fn forms() -> [Node; 13] {
    [
        plain(TRUE, 0, 0),
        plain(LABEL, 15, 0),
        plain(NOT, 0, 0),
        plain(AND, 0, 1),
        plain(OR, 0, 1),
        node(E, 1, 0, 1, 65_535),
        node(E, 2, 0, 1, 0),
        node(E, EXACTLY, 0, 1, 0),
        node(E, EXACTLY, 0, 1, 255),
        node(A, 1, 0, 1, 0),
        node(A, 2, 0, 1, 65_535),
        node(A, EXACTLY, 0, 1, 0),
        node(A, EXACTLY, 0, 1, 255),
    ]
}

fn rule_forms(list: &mut List) {
    form(list, "row 14: label 16", plain(LABEL, 16, 0), 14);
    form(list, "row 14 passed: label 15", plain(LABEL, 15, 0), 0);
    for operation in [7, 8, 128, 255] {
        form(list, "row 14: unknown operation", plain(operation, 0, 0), 14);
    }
    for right in forms() {
        form(list, "row 14 passed: right form", right, 0);
        let until = right.operation == E || right.operation == A;
        let wrong_kinds: &[u8] = if until { &[0, 4, 131, 255] } else { &[1, 2, 3, 255] };
        for &kind in wrong_kinds {
            form(list, "row 14: wrong kind", Node { kind, ..right }, 14);
        }
        if right.operation == TRUE {
            form(list, "row 14: a not 0", Node { a: 1, ..right }, 14);
        }
        if right.operands() < 2 {
            form(list, "row 14: b not 0", Node { b: 256, ..right }, 14);
        }
        if !until {
            form(list, "row 14: c not 0", Node { c: 1, ..right }, 14);
        }
        if right.kind == EXACTLY {
            form(list, "row 14: exactly above 255", Node { c: right.c + 256, ..right }, 14);
        }
    }
}

/// No byte above 6 is taken for an operation, whichever operation's fields it comes with.
fn unknown_operations(list: &mut List) {
    // Or and A have the fields of and and E; of the exact bounds one is enough.
    let one_exact = |right: &Node| right.kind != EXACTLY || right.c > 0;
    let others = forms().into_iter().filter(|right| right.operation != OR && right.operation != A).filter(one_exact);
    for (right, operation) in others.flat_map(|right| (7..=255).map(move |operation| (right, operation))) {
        let (mut nodes, place) = ended_by(right);
        nodes[place as usize].operation = operation;
        let name = format!("row 14: operation {operation} with the fields of {}, kind {}", right.operation, right.kind);
        add(list, &name, Case::Kind { rule: rule::bytes(&nodes) }, Expected::Outcome(14, place, 3));
    }
}

fn rule_operands(list: &mut List) {
    let t = || plain(TRUE, 0, 0);
    let rule = |nodes: &[Node]| rule::bytes(nodes);
    rule_row(list, "row 15: node 0 = not 0", rule(&[plain(NOT, 0, 0)]), 15, 0);
    rule_row(list, "row 15 passed: node 1 = not 0", rule(&[t(), plain(NOT, 0, 0)]), 0, 0);
    rule_row(list, "row 15: b is its own node", rule(&[t(), plain(AND, 0, 1)]), 15, 1);
    rule_row(list, "row 15: a is higher", rule(&[t(), plain(OR, 2, 0), t()]), 15, 1);
    rule_row(list, "row 15: a is 65,535", rule(&[t(), t(), node(E, 1, 65_535, 1, 3)]), 15, 2);
    rule_row(list, "row 15: b is 2", rule(&[t(), t(), node(A, 2, 0, 2, 3)]), 15, 2);
    rule_row(list, "row 16: node 1 = 0 and 0", rule(&[t(), plain(AND, 0, 0)]), 16, 0);
    rule_row(list, "row 16 passed: node 2 = 0 and 1", rule(&[t(), t(), plain(AND, 0, 1)]), 0, 0);
    rule_row(list, "row 16 passed: node 2 = 1 and 0", rule(&[t(), t(), plain(AND, 1, 0)]), 0, 0);
    rule_row(list, "row 16: node 0 unused", rule(&[t(), t()]), 16, 0);
    rule_row(list, "row 16: node 1 unused", rule(&[t(), t(), plain(NOT, 0, 0)]), 16, 1);
    let twice = [t(), plain(NOT, 0, 0), t(), node(E, 1, 1, 1, 5), plain(OR, 2, 3)];
    rule_row(list, "row 16: node 1 used twice", rule(&twice), 16, 1);
}

/// Two offenders against one row: the lowest is named.
fn lowest(list: &mut List) {
    let t = || plain(TRUE, 0, 0);
    let rule = |nodes: &[Node]| rule::bytes(nodes);
    let forms = [t(), plain(LABEL, 16, 0), plain(7, 0, 0)];
    rule_row(list, "row 14: nodes 1 and 2", rule(&forms), 14, 1);
    let operands = [t(), plain(NOT, 1, 0), plain(NOT, 2, 0)];
    rule_row(list, "row 15: nodes 1 and 2", rule(&operands), 15, 1);
    let uses = [t(), t(), t(), plain(AND, 2, 2), plain(NOT, 3, 0)];
    rule_row(list, "row 16: nodes 0, 1 and 2", rule(&uses), 16, 0);
    let later = [t(), plain(NOT, 0, 0), t(), t(), node(A, 1, 1, 2, 4), plain(AND, 4, 2)];
    rule_row(list, "row 16: nodes 2 and 3", rule(&later), 16, 2);
}

pub fn all(list: &mut List) {
    rule_frame(list);
    rule_forms(list);
    unknown_operations(list);
    rule_operands(list);
    lowest(list);
}

//! What rules that were read or written met: every form of a node, bounds of every length, and outputs about the
//! limits.

use crate::bytes::rule::{Node, A, E, EXACTLY, MOST_EXACT};

const FORMS: [&str; 12] = [
    "true",
    "label of one digit",
    "label of two digits",
    "not",
    "and",
    "or",
    "E at most",
    "E at least",
    "E exactly",
    "A at most",
    "A at least",
    "A exactly",
];

const BOUNDS: [&str; 4] = ["bound 0", "bound of one to four digits", "bound of five digits", "bound 65,535"];

const EXACT_BOUNDS: [&str; 3] = ["exactly 0", "exactly 1 to 254", "exactly 255"];

const OTHERS: [&str; 7] =
    ["1 node", "64 nodes", "532 bytes", "output just enough", "output to spare", "output a byte short", "output empty"];

/// All that is to be met, of either call.
pub fn all() -> impl Iterator<Item = &'static str> {
    FORMS.into_iter().chain(BOUNDS).chain(EXACT_BOUNDS).chain(OTHERS)
}

fn form(node: &Node) -> &'static str {
    match (node.operation, node.kind) {
        (0, _) => FORMS[0],
        (1, _) => FORMS[if node.a < 10 { 1 } else { 2 }],
        (E, kind) => FORMS[5 + kind as usize],
        (A, kind) => FORMS[8 + kind as usize],
        (operation, _) => FORMS[operation as usize + 1],
    }
}

fn bound(node: &Node) -> Option<&'static str> {
    if !matches!(node.operation, E | A) {
        return None;
    }
    Some(match (node.kind, node.c) {
        (EXACTLY, 0) => EXACT_BOUNDS[0],
        (EXACTLY, MOST_EXACT) => EXACT_BOUNDS[2],
        (EXACTLY, _) => EXACT_BOUNDS[1],
        (_, 0) => BOUNDS[0],
        (_, 1..=9_999) => BOUNDS[1],
        (_, 10_000..=65_534) => BOUNDS[2],
        (_, 65_535) => BOUNDS[3],
    })
}

/// Those of the pairs that are so.
pub fn only(met: &[(bool, &'static str)]) -> Vec<&'static str> {
    met.iter().filter(|(is, _)| *is).map(|(_, kind)| *kind).collect()
}

/// Of an accepted rule and the length of its text, with the length of the output and how much of it was written.
pub fn accepted(nodes: &[Node], text: usize, lent: usize, written: usize) -> Vec<&'static str> {
    let mut met: Vec<_> = nodes.iter().map(form).chain(nodes.iter().filter_map(bound)).collect();
    met.extend(only(&[
        (nodes.len() == 1, "1 node"),
        (nodes.len() == 64, "64 nodes"),
        (text == 532, "532 bytes"),
        (lent == written, "output just enough"),
        (lent > written, "output to spare"),
    ]));
    met
}

/// Of 66, with the length of the output and what it was to be.
pub fn output_short(lent: usize, wanted: usize) -> Vec<&'static str> {
    only(&[(lent + 1 == wanted, "output a byte short"), (lent == 0, "output empty")])
}

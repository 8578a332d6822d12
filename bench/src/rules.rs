//! Rules of 64 nodes with 31 untils, which is as many as 64 nodes can hold: 31 untils have 32 leaves, and one not is
//! left.

use crate::bytes::{self, Node};
use crate::nodes::{always, label, not, some_run, ALL_RUNS as A, AT_LEAST, AT_MOST, SOME_RUN as E};

pub const NAMES: [&str; 7] = ["mixed", "e-most", "e-least", "a-most", "a-least", "far", "e-far"];

/// Small, middle and greatest, as many as don't divide the four untils, so that each until meets each bound.
const BOUNDS: [u16; 7] = [3, 65_535, 60, 0, 500, 12, 2_500];

/// The rule of that name; no such rule gives none.
pub fn rule(name: &str) -> Option<Vec<u8>> {
    let untils: &[(u8, u8)] = match name {
        "mixed" => &[(E, AT_MOST), (A, AT_LEAST), (E, AT_LEAST), (A, AT_MOST)],
        "e-most" => &[(E, AT_MOST)],
        "e-least" => &[(E, AT_LEAST)],
        "a-most" => &[(A, AT_MOST)],
        "a-least" => &[(A, AT_LEAST)],
        "far" => return Some(bytes::rule(&far())),
        "e-far" => return Some(bytes::rule(&e_far())),
        _ => return None,
    };
    let mut tree = Tree { nodes: Vec::new(), untils, count: 0 };
    tree.grow(5);
    Some(bytes::rule(&tree.nodes))
}

/// A balanced tree of untils; the lowest ones stand over labels.
struct Tree<'a> {
    nodes: Vec<Node>,
    untils: &'a [(u8, u8)],
    count: usize,
}

impl Tree<'_> {
    /// Adds a tree of that depth and answers its root.
    fn grow(&mut self, depth: usize) -> u16 {
        let (a, b) = if depth == 1 { self.leaves() } else { (self.grow(depth - 1), self.grow(depth - 1)) };
        let (operation, kind) = self.untils[self.count % self.untils.len()];
        let c = BOUNDS[self.count % BOUNDS.len()];
        self.count += 1;
        self.push(Node { operation, kind, a, b, c })
    }

    fn leaves(&mut self) -> (u16, u16) {
        let i = self.count as u16;
        let p = self.push(label(i * 2 % 16));
        let q = self.push(label((i * 6 + 1) % 16));
        // The one not of the rule.
        if self.count == 0 {
            return (p, self.push(not(q)));
        }
        (p, q)
    }

    fn push(&mut self, node: Node) -> u16 {
        self.nodes.push(node);
        self.nodes.len() as u16 - 1
    }
}

/// Each until stands in the one after it as the first operand, and every bound is the greatest: on a chain with a loop
/// every until is marked everywhere, so each has the whole chain to run.
fn far() -> Vec<Node> {
    let untils = [(E, AT_MOST), (E, AT_LEAST), (A, AT_MOST)];
    let mut nodes = vec![label(1), not(0)];
    nodes.push(label(1));
    for i in 0..31 {
        let before = nodes.len() as u16 - 2;
        let (operation, kind) = untils[i % untils.len()];
        nodes.push(Node { operation, kind, a: before, b: before + 1, c: u16::MAX });
        if i < 30 {
            nodes.push(label(1));
        }
    }
    nodes
}

/// Each until is E(the one before it until L1, at least 65,535), and the last node the one not: on a closed chain, where
/// L1 stands at one state, every number rises to the greatest.
fn e_far() -> Vec<Node> {
    let mut nodes = vec![always()];
    for _ in 0..31 {
        let before = nodes.len() as u16 - 1;
        nodes.push(label(1));
        nodes.push(some_run(before, before + 1, AT_LEAST, u16::MAX));
    }
    nodes.push(not(nodes.len() as u16 - 1));
    nodes
}

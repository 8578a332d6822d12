//! Inputs of count: charts, and rules of 64 nodes whose 31 untils have one bound. Exact bounds are `exact`'s.

use crate::bytes::{self, Node};
use crate::nodes::{label, not, ALL_RUNS as A, AT_LEAST, AT_MOST, EXACTLY, SOME_RUN as E};
use crate::{instant, parts};

pub const CHARTS: [&str; 4] = ["parts", "parts-short", "parts-wide", "instant"];
pub const UNTILS: [&str; 5] = ["e-most", "e-least", "a-most", "a-least", "mixed"];
pub const BOUNDS: [u16; 3] = [15, 63, 255];

/// The charts and bounds by which the time is seen to grow.
pub const GROWING: [&str; 6] = ["random", "parts", "parts-short", "parts-wide", "instant", "handover"];
pub const GROWTH: [u16; 5] = [15, 31, 63, 127, 255];

/// Chart and rule of each row.
pub fn rows() -> Vec<(&'static str, String)> {
    let mut rows = Vec::new();
    for chart in CHARTS {
        for untils in UNTILS {
            rows.extend(BOUNDS.map(|c| (chart, name(untils, c))));
        }
    }
    rows
}

pub fn name(untils: &str, c: u16) -> String {
    format!("count-{untils}-{c}")
}

/// The chart of that name; no such chart gives none.
pub fn chart(name: &str) -> Option<Vec<u8>> {
    match name {
        "instant" => Some(instant::chart()),
        _ => parts::chart(name),
    }
}

/// The rule of that name; no such rule gives none.
pub fn rule(name: &str) -> Option<Vec<u8>> {
    let (untils, c) = name.strip_prefix("count-")?.rsplit_once('-')?;
    let mut tree = Tree { nodes: Vec::new(), leaves: 0, c: c.parse().ok()? };
    let last = match untils {
        "e-most" => tree.grow(E, &[AT_MOST], 31),
        "e-least" => tree.grow(E, &[AT_LEAST], 31),
        "a-most" => tree.grow(A, &[AT_MOST], 31),
        "a-least" => tree.grow(A, &[AT_LEAST], 31),
        "e-exact" => tree.grow(E, &[EXACTLY], 31),
        "a-exact" => tree.grow(A, &[EXACTLY], 31),
        "mixed" => tree.both(&[AT_MOST, AT_LEAST]),
        "both-most" => tree.both(&[AT_MOST]),
        "both-least" => tree.both(&[AT_LEAST]),
        "both-exact" => tree.both(&[EXACTLY]),
        _ => return None,
    };
    tree.push(not(last));
    Some(bytes::rule(&tree.nodes))
}

struct Tree {
    nodes: Vec<Node>,
    leaves: u16,
    c: u16,
}

impl Tree {
    /// That many untils, of the kinds by turns, each standing in the next; answers the last. E stands there as first
    /// operand and A as second: the other way round few states would be left to go through.
    fn grow(&mut self, operation: u8, kinds: &[u8], count: usize) -> u16 {
        let (p, q) = (self.even(), self.odd());
        let mut last = self.until(operation, kinds[0], p, q);
        for i in 1..count {
            let (p, q) = if operation == E { (last, self.odd()) } else { (self.even(), last) };
            last = self.until(operation, kinds[i % kinds.len()], p, q);
        }
        last
    }

    /// 15 untils of E and 15 of A, in one more.
    fn both(&mut self, kinds: &[u8]) -> u16 {
        let (p, q) = (self.grow(E, kinds, 15), self.grow(A, kinds, 15));
        self.until(E, kinds[0], p, q)
    }

    fn until(&mut self, operation: u8, kind: u8, a: u16, b: u16) -> u16 {
        self.push(Node { operation, kind, a, b, c: self.c })
    }

    /// The next of the even labels, which are for P.
    fn even(&mut self) -> u16 {
        self.leaves += 1;
        self.push(label(self.leaves * 2 % 16))
    }

    /// The next of the odd labels, which are for Q.
    fn odd(&mut self) -> u16 {
        self.leaves += 1;
        self.push(label((self.leaves * 2 + 1) % 16))
    }

    fn push(&mut self, node: Node) -> u16 {
        self.nodes.push(node);
        self.nodes.len() as u16 - 1
    }
}

/// The rule with every bound brought to 255 at most: the lower byte of each is kept.
pub fn near(mut rule: Vec<u8>) -> Vec<u8> {
    for node in rule[7..].chunks_exact_mut(8) {
        node[6] = 0;
    }
    rule
}

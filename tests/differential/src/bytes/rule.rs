//! Rules: nodes and their bytes.

use crate::bytes::chart::framed;

pub const TRUE: u8 = 0;
pub const LABEL: u8 = 1;
pub const NOT: u8 = 2;
pub const AND: u8 = 3;
pub const OR: u8 = 4;
pub const E: u8 = 5;
pub const A: u8 = 6;

pub const AT_MOST: u8 = 1;
pub const AT_LEAST: u8 = 2;
pub const EXACTLY: u8 = 3;

/// The greatest c of an exact bound.
pub const MOST_EXACT: u16 = 255;

#[derive(Clone, Copy, Debug, PartialEq, Eq)]
pub struct Node {
    pub operation: u8,
    pub kind: u8,
    pub a: u16,
    pub b: u16,
    pub c: u16,
}

pub fn node(operation: u8, kind: u8, a: usize, b: usize, c: usize) -> Node {
    Node { operation, kind, a: a as u16, b: b as u16, c: c as u16 }
}

pub fn plain(operation: u8, a: usize, b: usize) -> Node {
    node(operation, 0, a, b, 0)
}

impl Node {
    pub fn operands(&self) -> usize {
        match self.operation {
            NOT => 1,
            AND | OR | E | A => 2,
            _ => 0,
        }
    }
}

/// The numbers of scratch that check wants: one exact bound is enough for the more, wherever it stands.
pub fn check_scratch(nodes: &[Node], n: usize) -> usize {
    if nodes.iter().any(|node| node.kind == EXACTLY) {
        256 * n
    } else {
        4 * n
    }
}

pub fn bytes(nodes: &[Node]) -> Vec<u8> {
    let mut words = vec![nodes.len() as u16];
    for x in nodes {
        words.extend([u16::from_be_bytes([x.operation, x.kind]), x.a, x.b, x.c]);
    }
    framed(&words)
}

/// The nodes that a rule's bytes have after their head.
pub fn nodes(rule: &[u8]) -> Vec<Node> {
    let word = |x: &[u8], at: usize| u16::from_be_bytes([x[at], x[at + 1]]);
    let read = |x: &[u8]| Node { operation: x[0], kind: x[1], a: word(x, 2), b: word(x, 4), c: word(x, 6) };
    rule.get(7..).unwrap_or(&[]).chunks_exact(8).map(read).collect()
}

//! The fields of a rule, and its bytes from them.

use crate::bytes::{byte_at, word_at};

pub const TRUE: u8 = 0;
pub const LABEL: u8 = 1;
pub const NOT: u8 = 2;
pub const AND: u8 = 3;
pub const OR: u8 = 4;
pub const E_UNTIL: u8 = 5;
pub const A_UNTIL: u8 = 6;

pub const AT_MOST: u8 = 1;
pub const AT_LEAST: u8 = 2;
pub const EXACTLY: u8 = 3;

#[derive(Clone, Copy)]
pub struct Node {
    pub operation: u8,
    pub bound_kind: u8,
    pub a: u16,
    pub b: u16,
    pub c: u16,
}

impl Node {
    pub fn is_until(&self) -> bool {
        matches!(self.operation, E_UNTIL | A_UNTIL)
    }

    pub fn operand_count(&self) -> usize {
        match self.operation {
            NOT => 1,
            AND | OR | E_UNTIL | A_UNTIL => 2,
            _ => 0,
        }
    }

    pub fn operands(&self) -> impl Iterator<Item = usize> {
        [usize::from(self.a), usize::from(self.b)].into_iter().take(self.operand_count())
    }
}

pub fn node_count(rule: &[u8]) -> usize {
    usize::from(word_at(rule, 5))
}

/// The nodes in number order.
pub fn nodes(rule: &[u8]) -> impl Iterator<Item = Node> + '_ {
    (0..node_count(rule)).map(move |t| node_at(rule, 7 + 8 * t))
}

fn node_at(rule: &[u8], at: usize) -> Node {
    Node {
        operation: byte_at(rule, at),
        bound_kind: byte_at(rule, at + 1),
        a: word_at(rule, at + 2),
        b: word_at(rule, at + 4),
        c: word_at(rule, at + 6),
    }
}

/// Version, length, node count and the nodes.
pub fn rule_bytes(nodes: &[Node]) -> Vec<u8> {
    let length = 7 + 8 * nodes.len();
    let head = [[1].as_slice(), &(length as u32).to_be_bytes(), &(nodes.len() as u16).to_be_bytes()].concat();
    head.into_iter().chain(nodes.iter().flat_map(node_bytes)).collect()
}

fn node_bytes(node: &Node) -> Vec<u8> {
    let words = [node.a, node.b, node.c].map(u16::to_be_bytes);
    [[node.operation, node.bound_kind].as_slice(), words.as_flattened()].concat()
}

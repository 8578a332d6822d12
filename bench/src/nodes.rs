//! The forms of a rule's nodes.

use crate::bytes::Node;

pub const SOME_RUN: u8 = 5;
pub const ALL_RUNS: u8 = 6;
pub const AT_MOST: u8 = 1;
pub const AT_LEAST: u8 = 2;
pub const EXACTLY: u8 = 3;

/// The greatest exact bound.
pub const MOST_EXACT: u16 = 255;

pub fn always() -> Node {
    Node { operation: 0, kind: 0, a: 0, b: 0, c: 0 }
}

pub fn label(a: u16) -> Node {
    Node { operation: 1, kind: 0, a, b: 0, c: 0 }
}

pub fn not(a: u16) -> Node {
    Node { operation: 2, kind: 0, a, b: 0, c: 0 }
}

pub fn and(a: u16, b: u16) -> Node {
    Node { operation: 3, kind: 0, a, b, c: 0 }
}

pub fn or(a: u16, b: u16) -> Node {
    Node { operation: 4, kind: 0, a, b, c: 0 }
}

pub fn some_run(a: u16, b: u16, kind: u8, c: u16) -> Node {
    Node { operation: SOME_RUN, kind, a, b, c }
}

pub fn all_runs(a: u16, b: u16, kind: u8, c: u16) -> Node {
    Node { operation: ALL_RUNS, kind, a, b, c }
}

//! The thirteen items of the paper, and its listing.

use crate::common::{arrow, marks, node};
use bench::bytes::{Arrow, Node, NO_END};

fn short() -> Vec<Arrow> {
    vec![arrow(0, 1, 5, 10), arrow(1, 2, 0, 4), arrow(2, 0, 20, NO_END)]
}

fn undo() -> Vec<Arrow> {
    let mut arrows = short();
    arrows.push(arrow(1, 0, 1, 1));
    arrows
}

/// The last row, as the paper writes it.
fn last(labels: &[u16], arrows: &[Arrow], nodes: &[Node]) -> String {
    let n = labels.len();
    let all = marks(labels, arrows, nodes);
    all[(nodes.len() - 1) * n..].iter().map(u8::to_string).collect()
}

/// True until L2.
fn from_true(operation: u8, kind: u8, c: u16) -> Vec<Node> {
    vec![node(0, 0, 0, 0, 0), node(1, 0, 2, 0, 0), node(operation, kind, 0, 1, c)]
}

/// Not L2 until L2.
fn from_not(operation: u8, kind: u8, c: u16) -> Vec<Node> {
    let two = node(1, 0, 2, 0, 0);
    vec![two, node(2, 0, 0, 0, 0), two, node(operation, kind, 1, 2, c)]
}

const THREE: [u16; 3] = [1, 2, 4];

#[test]
fn items_one_to_five() {
    assert_eq!(last(&THREE, &short(), &from_true(5, 1, 5)), "111");
    assert_eq!(last(&THREE, &short(), &from_true(5, 1, 4)), "011");
    assert_eq!(last(&THREE, &short(), &from_true(6, 1, 14)), "111");
    assert_eq!(last(&THREE, &short(), &from_true(6, 1, 13)), "011");
    assert_eq!(last(&THREE, &undo(), &from_true(6, 1, 14)), "001");
}

#[test]
fn items_six_to_ten() {
    assert_eq!(last(&THREE, &short(), &from_not(5, 2, 14)), "100");
    assert_eq!(last(&THREE, &short(), &from_not(5, 2, 15)), "000");
    assert_eq!(last(&THREE, &undo(), &from_not(5, 2, 15)), "110");
    assert_eq!(last(&THREE, &short(), &from_not(6, 2, 5)), "100");
    assert_eq!(last(&THREE, &short(), &from_not(6, 2, 6)), "000");
}

#[test]
fn items_eleven_to_thirteen() {
    let one = [arrow(0, 0, 1, 1)];
    let (always, zero) = (node(0, 0, 0, 0, 0), node(1, 0, 0, 0, 0));
    assert_eq!(last(&[0], &one, &[always, zero, node(5, 2, 0, 1, 0)]), "0");
    assert_eq!(last(&[0], &one, &[always, zero, node(2, 0, 1, 0, 0), node(5, 1, 0, 2, 0)]), "1");
    assert_eq!(last(&[0], &one, &[always, always, node(5, 2, 0, 1, 65_535)]), "1");
}

#[test]
fn listing() {
    assert_eq!(marks(&THREE, &short(), &from_true(6, 1, 13)), [1, 1, 1, 0, 0, 1, 0, 1, 1]);
}

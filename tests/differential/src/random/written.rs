//! Rules to be written as text: left operand first, right operand first, in any order, and refused ones.

use crate::bytes::rule::{self, Node};
use crate::bytes::text::text;
use crate::cases::case::Case;
use crate::named::rules::nots;
use crate::random::damage;
use crate::random::faults;
use crate::random::formulas;
use crate::random::generate::lent;
use crate::random::long_texts::longest_of_64;
use crate::random::rng::Rng;
use crate::random::trees::renumbered;

fn size(rng: &mut Rng) -> usize {
    match rng.below(10) {
        0 => 64,
        1..=3 => rng.within(10, 64),
        4 => rng.within(1, 2),
        _ => rng.within(3, 9),
    }
}

/// As it is drawn, with the operands of every node exchanged, or with the nodes in any order.
fn ordered(rng: &mut Rng, mut nodes: Vec<Node>) -> Vec<Node> {
    match rng.below(4) {
        0 | 1 => renumbered(rng, &nodes),
        2 => {
            for node in nodes.iter_mut().filter(|node| node.operands() == 2) {
                (node.a, node.b) = (node.b, node.a);
            }
            nodes
        }
        _ => nodes,
    }
}

/// Now and then the longest text there is, or the deepest rule.
fn drawn(rng: &mut Rng) -> Vec<Node> {
    let size = size(rng);
    match rng.below(80) {
        0 | 1 => longest_of_64(),
        2 => nots(64),
        _ => formulas::random(rng, size),
    }
}

pub fn random(rng: &mut Rng) -> Case {
    let drawn = drawn(rng);
    let mut nodes = ordered(rng, drawn);
    let mut output = lent(rng, text(&nodes).len());
    let damaged = rng.percent(35);
    if damaged && rng.percent(70) {
        faults::rule(rng, &mut nodes);
    }
    let mut rule = rule::bytes(&nodes);
    if damaged && rng.percent(50) {
        damage::bytes(rng, &mut rule, damage::ONE_COUNT);
    }
    // What is wrong with the rule is told whatever is lent.
    if damaged && rng.percent(40) {
        output.length = rng.below(output.length);
    }
    Case::Write { rule, output }
}

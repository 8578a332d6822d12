//! Write rule: a rule in bytes becomes "its tree's one text".

use crate::answers::{Outcome, Written};
use crate::front::to_front;
use crate::grammar::GRAMMAR;
use crate::refusals::{first_met, Case};
use crate::rule::{nodes, Node};

pub fn write_rule(rule: &[u8], output: &mut [u8]) -> Written {
    to_front(text_of(rule), output)
}

/// The texts of all nodes in number order: operands are lower, so theirs stand already.
fn text_of(rule: &[u8]) -> Result<Vec<u8>, Outcome> {
    let outcome = first_met(&Case::rule(rule), &[10..=16]);
    if outcome.refused() {
        return Err(outcome);
    }
    let mut texts: Vec<Vec<u8>> = Vec::new();
    for node in nodes(rule) {
        let text = node_text(&node, &texts);
        texts.push(text);
    }
    Ok(texts.pop().expect("row 13 asks for a node"))
}

/// The letters of the node's row, each part replaced by its text.
fn node_text(node: &Node, texts: &[Vec<u8>]) -> Vec<u8> {
    let is_made = |makes| makes == Some((node.operation, node.bound_kind));
    let row = GRAMMAR.iter().find(|row| is_made(row.makes)).expect("row 14 lets no other node pass");
    let written = |&letter: &u8| match letter {
        b'f' => texts[usize::from(node.a)].clone(),
        b'g' => texts[usize::from(node.b)].clone(),
        b'j' => node.a.to_string().into_bytes(),
        b'c' | b'x' => node.c.to_string().into_bytes(),
        byte => vec![byte],
    };
    row.letters.iter().flat_map(written).collect()
}

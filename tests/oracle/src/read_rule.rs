//! Read rule: a typed text becomes a rule in bytes.

use crate::answers::{Outcome, Written};
use crate::earley::parse;
use crate::front::to_front;
use crate::rule::rule_bytes;
use crate::tree::nodes_of;

/// The limits of 65.
const MOST_BYTES: usize = 4_096;
const MOST_NODES: usize = 64;

pub fn read_rule(text: &[u8], output: &mut [u8]) -> Written {
    to_front(rule_of(text), output)
}

/// 65 for the bytes comes first, and the one for the nodes only to a whole text of the grammar.
fn rule_of(text: &[u8]) -> Result<Vec<u8>, Outcome> {
    if text.len() > MOST_BYTES {
        return Err(Outcome::at_0(65));
    }
    let parsed = parse(text).map_err(|place| Outcome::at(64, place))?;
    let nodes = nodes_of(text, &parsed);
    match nodes.len() <= MOST_NODES {
        true => Ok(rule_bytes(&nodes)),
        false => Err(Outcome::at_0(65)),
    }
}

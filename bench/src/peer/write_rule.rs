//! Writing a rule back as text, down its tree: refusals 10 to 16 and 66.

use super::rule::{Bound, Node, Rule};
use super::show::Written;
use super::{refusal, Outcome};

/// No rule has a text of more bytes.
const LONGEST: usize = 532;

/// Writes the text of the rule.
pub fn write_rule(rule: &[u8], output: &mut [u8]) -> Written {
    match text_of(rule).and_then(|text| put_text(&text, output)) {
        Ok(written) => Written { outcome: Outcome::ACCEPTED, written },
        Err(refused) => Written { outcome: refused, written: 0 },
    }
}

fn text_of(rule: &[u8]) -> Result<String, Outcome> {
    let nodes = Rule::read(rule)?.nodes;
    let mut text = String::with_capacity(LONGEST);
    put_node(&nodes, nodes.len() - 1, &mut text);
    Ok(text)
}

fn put_text(text: &str, output: &mut [u8]) -> Result<usize, Outcome> {
    output.get_mut(..text.len()).ok_or(refusal(66, 0))?.copy_from_slice(text.as_bytes());
    Ok(text.len())
}

fn put_node(nodes: &[Node], t: usize, text: &mut String) {
    match nodes[t] {
        Node::True => text.push_str("true"),
        Node::Label(a) => put_number("L", a.into(), text),
        Node::Not(a) => {
            text.push('!');
            put_node(nodes, a, text);
        }
        Node::And(a, b) => put_pair(nodes, a, b, "&", text),
        Node::Or(a, b) => put_pair(nodes, a, b, "|", text),
        Node::SomeRun(a, b, bound) => put_until(nodes, a, b, 'E', bound, text),
        Node::AllRuns(a, b, bound) => put_until(nodes, a, b, 'A', bound, text),
    }
}

fn put_pair(nodes: &[Node], a: usize, b: usize, sign: &str, text: &mut String) {
    text.push('(');
    put_node(nodes, a, text);
    text.push(' ');
    text.push_str(sign);
    text.push(' ');
    put_node(nodes, b, text);
    text.push(')');
}

fn put_until(nodes: &[Node], a: usize, b: usize, letter: char, bound: Bound, text: &mut String) {
    text.push(letter);
    text.push('(');
    put_node(nodes, a, text);
    match bound {
        Bound::AtMost(c) => put_number(" U<=", c, text),
        Bound::AtLeast(c) => put_number(" U>=", c, text),
        Bound::Exactly(c) => put_number(" U==", c, text),
    }
    text.push(' ');
    put_node(nodes, b, text);
    text.push(')');
}

fn put_number(before: &str, number: u32, text: &mut String) {
    text.push_str(before);
    put_digits(number, text);
}

fn put_digits(number: u32, text: &mut String) {
    if number >= 10 {
        put_digits(number / 10, text);
    }
    text.push((b'0' + (number % 10) as u8) as char);
}

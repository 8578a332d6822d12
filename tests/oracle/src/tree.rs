//! The nodes of a typed rule, out of the finished items of its text.

use crate::earley::{Item, Parsed};
use crate::rule::Node;

/// The items' order is the one asked for, "operands before their node, left first": an operand is finished before its
/// node, and the left one before the right one starts.
pub fn nodes_of(text: &[u8], parsed: &Parsed) -> Vec<Node> {
    let mut nodes = Vec::new();
    let mut values = vec![0; parsed.items.len()];
    for at in finished(parsed) {
        let item = &parsed.items[at];
        values[at] = match item.row().makes {
            Some(makes) => {
                nodes.push(node_of(makes, item, parsed, &values));
                nodes.len() - 1
            }
            None => number_of(text, item),
        };
    }
    nodes
}

/// The finished items of the tree, in their order. Some others led nowhere, as L1 in L15.
fn finished(parsed: &Parsed) -> Vec<usize> {
    let mut of_tree = vec![false; parsed.items.len()];
    of_tree[parsed.whole] = true;
    for at in (0..=parsed.whole).rev() {
        if of_tree[at] {
            let Item { before, by, .. } = parsed.items[at];
            before.into_iter().chain(by).for_each(|lower| of_tree[lower] = true);
        }
    }
    (0..=parsed.whole).filter(|&at| of_tree[at] && parsed.items[at].is_finished()).collect()
}

/// A finished part's value is its node's number, or the number itself. The letters of the row tell which field each value
/// is for; fields not used are 0.
fn node_of(makes: (u8, u8), item: &Item, parsed: &Parsed, values: &[usize]) -> Node {
    let mut node = Node { operation: makes.0, bound_kind: makes.1, a: 0, b: 0, c: 0 };
    let mut at = item;
    while let Some(before) = at.before {
        if let Some(by) = at.by {
            let field = match item.row().letters[at.read - 1] {
                b'g' => &mut node.b,
                b'c' | b'x' => &mut node.c,
                _ => &mut node.a,
            };
            *field = values[by] as u16;
        }
        at = &parsed.items[before];
    }
    node
}

/// A number's row is as long as its text.
fn number_of(text: &[u8], item: &Item) -> usize {
    let digits = &text[item.start..][..item.read];
    digits.iter().fold(0, |value, digit| 10 * value + usize::from(digit - b'0'))
}

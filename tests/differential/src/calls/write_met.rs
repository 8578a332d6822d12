//! What the writes met: the order of a rule's nodes, the deepest rule, and refused rules with no output.

use crate::bytes::rule::{self, Node};
use crate::bytes::text::{left_first, text};
use crate::calls::compare::Answer;
use crate::calls::rule_met::{self, only};
use crate::cases::case::Case;

const LEFT: &str = "left operand first";
const RIGHT: &str = "right operand first";
const OTHER: &str = "in another order";
const NOTS: &str = "63 nots";
const UNLENT: &str = "10 to 16, output empty";

/// All that is to be met.
pub fn all() -> impl Iterator<Item = &'static str> {
    rule_met::all().chain([LEFT, RIGHT, OTHER, NOTS, UNLENT])
}

/// The same nodes, the two operands of each exchanged.
fn mirrored(nodes: &[Node]) -> Vec<Node> {
    let turned = |node: &Node| if node.operands() == 2 { Node { a: node.b, b: node.a, ..*node } } else { *node };
    nodes.iter().map(turned).collect()
}

/// None where no node has two operands.
fn order(nodes: &[Node]) -> Option<&'static str> {
    nodes.iter().find(|node| node.operands() == 2)?;
    Some(match () {
        _ if left_first(nodes) == nodes => LEFT,
        _ if left_first(&mirrored(nodes)) == mirrored(nodes) => RIGHT,
        _ => OTHER,
    })
}

fn accepted(nodes: &[Node], lent: usize, written: usize) -> Vec<&'static str> {
    let mut met = rule_met::accepted(nodes, written, lent, written);
    met.extend(order(nodes));
    met.extend(only(&[(nodes.iter().filter(|node| node.operands() == 1).count() == 63, NOTS)]));
    met
}

/// Those that a write met.
pub fn kinds(case: &Case, answer: &Answer) -> Vec<&'static str> {
    let (Case::Write { rule, output }, Answer::Turned { outcome, written, .. }) = (case, answer) else {
        return Vec::new();
    };
    let nodes = rule::nodes(rule);
    match outcome.number {
        0 => accepted(&nodes, output.length, *written),
        66 => rule_met::output_short(output.length, text(&nodes).len()),
        _ => only(&[(output.length == 0, UNLENT)]),
    }
}

#[cfg(test)]
mod tests {
    use super::{all, kinds};
    use crate::bytes::rule::{self, plain, Node, AND, LABEL, NOT, TRUE};
    use crate::calls::compare::oracle;
    use crate::calls::met::Met;
    use crate::named::expected::write;
    use crate::named::rules::nots;
    use crate::random::typed;

    fn met(nodes: &[Node], output: usize) -> Vec<&'static str> {
        let case = write(rule::bytes(nodes), output);
        kinds(&case, &oracle::run(&case))
    }

    #[test]
    fn each_write_counts_for_its_kinds() {
        let (yes, label) = (plain(TRUE, 0, 0), plain(LABEL, 3, 0));
        assert_eq!(met(&[yes], 4), ["true", "1 node", "output just enough"]);
        assert_eq!(met(&[yes], 3), ["output a byte short"]);
        assert_eq!(met(&[yes, yes], 0), ["10 to 16, output empty"]);
        let forms = ["true", "label of one digit", "and", "output to spare"];
        assert_eq!(met(&[yes, label, plain(AND, 0, 1)], 99), [&forms[..], &["left operand first"]].concat());
        assert_eq!(met(&[yes, label, plain(AND, 1, 0)], 99), [&forms[..], &["right operand first"]].concat());
        let mixed = [yes, label, plain(NOT, 0, 0), plain(AND, 2, 1)];
        assert_eq!(met(&mixed, 99).last(), Some(&"in another order"));
        assert!(met(&nots(64), 99).contains(&"63 nots") && !met(&nots(63), 99).contains(&"63 nots"));
    }

    #[test]
    fn a_kind_is_missing_until_it_is_met() {
        let mut every = Met::of(all());
        assert!(every.missing().eq(all()));
        for number in 0..20_000 {
            let case = typed::random(1, number);
            let kinds = kinds(&case, &oracle::run(&case));
            every.add(&kinds);
            assert!(kinds.iter().all(|kind| all().any(|known| known == *kind)), "{kinds:?}");
        }
        assert!(every.missing().count() < 3, "{}", every.text());
    }
}

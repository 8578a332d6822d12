//! Write rule: the text, the rule's own refusals, and the room.

use crate::formulas::some_formula;
use crate::make::{label, not, rule, true_l2, NodeFields, Numbers, A, AT_LEAST, AT_MOST, E, EXACTLY, TRUE};
use crate::text_call::{write, write_into};
use crate::told::told;
use oracle::kind_of_rule;

fn text(nodes: &[NodeFields]) -> String {
    String::from_utf8(write(&rule(nodes)).expect("an accepted rule")).expect("ASCII")
}

#[test]
fn each_operation() {
    assert_eq!(text(&[TRUE]), "true");
    for j in 0..16 {
        assert_eq!(text(&[label(j)]), format!("L{j}"));
    }
    assert_eq!(text(&[label(7), not(0)]), "!L7");
    assert_eq!(text(&[TRUE, label(1), (3, 0, 0, 1, 0)]), "(true & L1)");
    assert_eq!(text(&[TRUE, label(1), (4, 0, 0, 1, 0)]), "(true | L1)");
    assert_eq!(text(&[TRUE, label(2), (A, AT_MOST, 0, 1, 14)]), "A(true U<=14 L2)");
    assert_eq!(text(&[TRUE, label(2), (A, AT_LEAST, 0, 1, 0)]), "A(true U>=0 L2)");
    assert_eq!(text(&[TRUE, label(2), (E, AT_MOST, 0, 1, 65_535)]), "E(true U<=65535 L2)");
    assert_eq!(text(&[TRUE, label(2), (E, AT_LEAST, 0, 1, 100)]), "E(true U>=100 L2)");
    assert_eq!(text(&[TRUE, label(2), (E, EXACTLY, 0, 1, 0)]), "E(true U==0 L2)");
    assert_eq!(text(&[TRUE, label(2), (A, EXACTLY, 0, 1, 255)]), "A(true U==255 L2)");
}

/// The tree has one text, whatever the order of its nodes.
#[test]
fn any_order_of_nodes() {
    assert_eq!(text(&[label(1), TRUE, (3, 0, 1, 0, 0)]), "(true & L1)");
    let mixed = [label(0), label(1), label(2), not(1), (E, AT_MOST, 2, 0, 3), (4, 0, 3, 4, 0)];
    assert_eq!(text(&mixed), "(!L1 | E(L2 U<=3 L0))");
}

/// The small inputs of rows 10 to 16, each beside one that passes. The answers are those of kind of rule.
#[test]
fn the_rule_s_own_refusals() {
    let three = true_l2(A, AT_MOST, 14);
    let altered = |at: usize, byte: u8| [&three[..at], &[byte], &three[at + 1..]].concat();
    assert_eq!(write(&three), Ok(b"A(true U<=14 L2)".to_vec()));
    for (refused, answer) in [
        (vec![], (10, 0, 3)),
        (three[..6].to_vec(), (10, 0, 3)),
        (altered(0, 0), (11, 0, 3)),
        (three[..30].to_vec(), (12, 0, 3)),
        (rule(&[TRUE; 65]), (13, 0, 3)),
        (altered(6, 2), (13, 0, 3)),
        (rule(&[label(16)]), (14, 0, 3)),
        (altered(24, 4), (14, 2, 3)),
        (true_l2(A, EXACTLY, 256), (14, 2, 3)),
        (rule(&[not(0)]), (15, 0, 3)),
        (rule(&[TRUE, (3, 0, 0, 0, 0)]), (16, 0, 3)),
        (rule(&[TRUE, TRUE]), (16, 0, 3)),
    ] {
        assert_eq!(told(kind_of_rule(&refused).outcome), answer, "{refused:?}");
        assert_eq!(write(&refused), Err(answer), "{refused:?}");
        assert_eq!(write_into(&refused, 0), Err(answer), "{refused:?}");
    }
    assert_eq!(write(&rule(&[label(15)])), Ok(b"L15".to_vec()));
    assert_eq!(write(&rule(&[TRUE, not(0)])), Ok(b"!true".to_vec()));
}

#[test]
fn output_short() {
    let mut numbers = Numbers(53);
    for count in 1..=64 {
        let formula = some_formula(&mut numbers, count);
        let (text, rule) = (formula.text().into_bytes(), formula.rule(&mut || false));
        assert_eq!(write_into(&rule, text.len()), Ok(text.clone()));
        assert_eq!(write_into(&rule, text.len() + 1), Ok(text.clone()));
        assert_eq!(write_into(&rule, text.len() - 1), Err((66, 0, 5)));
        assert_eq!(write_into(&rule, 0), Err((66, 0, 5)));
    }
}

/// Of each number of nodes, from the longest of fewer: `true`, a not, or an until with five digits.
#[test]
fn the_longest_text() {
    let mut longest = vec![0, "true".len()];
    for count in 2..=64usize {
        let of_two = (1..count - 1).map(|left| "E( U<=65535 )".len() + longest[left] + longest[count - 1 - left]);
        let most = of_two.chain([1 + longest[count - 1]]).max();
        longest.push(most.expect("a not at least"));
    }
    assert_eq!(longest.iter().max(), Some(&532));
    let mut nodes = vec![TRUE];
    for t in (1..62).step_by(2) {
        nodes.extend([TRUE, (E, AT_LEAST, t - 1, t, 65_535)]);
    }
    nodes.push(not(62));
    assert_eq!((nodes.len(), text(&nodes).len()), (64, 532));
}

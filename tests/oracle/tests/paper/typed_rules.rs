//! Typed texts that are taken, and the bytes they become.

use crate::make::{l0_l1, label, not, rule, true_l2, NodeFields, A, AT_LEAST, AT_MOST, E, EXACTLY, TRUE};
use crate::text_call::{read, read_into};

fn becomes(text: &str, nodes: &[NodeFields]) {
    assert_eq!(read(text), Ok(rule(nodes)), "{text}");
}

/// The example of the paper and its bytes in the readings.
#[test]
fn the_paper_s_own_text() {
    let bytes = [
        0x01, 0, 0, 0, 0x1F, 0, 0x03, 0, 0, 0, 0, 0, 0, 0, 0, 0x01, 0, 0, 0x02, 0, 0, 0, 0, 0x06, 0x01, 0, 0, 0, 0x01,
        0, 0x0E,
    ];
    assert_eq!(read_into("A(true U<=14 L2)", 40), Ok(bytes.to_vec()));
    assert_eq!(read("A(true U<=14 L2)"), Ok(true_l2(A, AT_MOST, 14)));
}

#[test]
fn each_line_of_the_grammar() {
    becomes("true", &[TRUE]);
    becomes("!true", &[TRUE, not(0)]);
    becomes("(L0 & L1)", &[label(0), label(1), (3, 0, 0, 1, 0)]);
    becomes("(L0 | L1)", &[label(0), label(1), (4, 0, 0, 1, 0)]);
    for (operation, quantifier) in [(E, "E"), (A, "A")] {
        for (kind, sign) in [(AT_MOST, "<="), (AT_LEAST, ">="), (EXACTLY, "==")] {
            let text = format!("{quantifier}(L0 U{sign}7 L1)");
            assert_eq!(read(&text), Ok(l0_l1(operation, kind, 7)), "{text}");
        }
    }
}

#[test]
fn all_labels() {
    for j in 0..16 {
        becomes(&format!("L{j}"), &[label(j)]);
        becomes(&format!("!L{j}"), &[label(j), not(0)]);
    }
}

#[test]
fn all_bounds() {
    for c in 0..=65_535 {
        assert_eq!(read(format!("E(L0 U>={c} L1)")), Ok(l0_l1(E, AT_LEAST, c)), "{c}");
    }
    for c in 0..=255 {
        assert_eq!(read(format!("A(L0 U=={c} L1)")), Ok(l0_l1(A, EXACTLY, c)), "{c}");
    }
}

/// "operands before their node, left first": the left operand whole, then the right one.
#[test]
fn left_first() {
    let left = [label(0), label(1), (3, 0, 0, 1, 0)];
    becomes("((L0 & L1) | !L2)", &[left.as_slice(), &[label(2), not(3), (4, 0, 2, 4, 0)]].concat());
    becomes("(!L2 | (L0 & L1))", &[label(2), not(0), label(0), label(1), (3, 0, 2, 3, 0), (4, 0, 1, 4, 0)]);
    let (left, right) = ([label(1), label(3), (E, AT_MOST, 0, 1, 2)], [label(5), label(7), (E, AT_MOST, 3, 4, 6)]);
    let in_both = [left.as_slice(), &right, &[(A, AT_LEAST, 2, 5, 4)]].concat();
    becomes("A(E(L1 U<=2 L3) U>=4 E(L5 U<=6 L7))", &in_both);
}

#[test]
fn nots_in_a_row() {
    becomes("!!!L15", &[label(15), not(0), not(1), not(2)]);
    becomes("!(!true & !!true)", &[TRUE, not(0), TRUE, not(2), not(3), (3, 0, 1, 4, 0), not(5)]);
}

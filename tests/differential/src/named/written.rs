//! Write: the one text of a tree in any order of its nodes, and row 66 with the neighbour that passes. Rows 10 to 16
//! stand with the other calls'.

use crate::bytes::rule::{self, node, plain, Node, A, AND, E, LABEL, NOT, OR, TRUE};
use crate::bytes::text::text;
use crate::named::charts::List;
use crate::named::expected::{add, write, Expected};
use crate::named::rules::nots;
use crate::random::long_texts::longest_of_64;

fn yes() -> Node {
    plain(TRUE, 0, 0)
}

fn label(number: usize) -> Node {
    plain(LABEL, number, 0)
}

fn told(list: &mut List, nodes: &[Node], text: &str) {
    let case = write(rule::bytes(nodes), text.len());
    add(list, &format!("written: {text}"), case, Expected::Text(text.to_string()));
}

fn forms(list: &mut List) {
    told(list, &[yes()], "true");
    for number in 0..=15 {
        told(list, &[label(number)], &format!("L{number}"));
    }
    told(list, &[label(7), plain(NOT, 0, 0)], "!L7");
    told(list, &[yes(), label(1), plain(AND, 0, 1)], "(true & L1)");
    told(list, &[yes(), label(1), plain(OR, 0, 1)], "(true | L1)");
    for (letter, operation) in [("E", E), ("A", A)] {
        for (sign, kind) in [("<=", 1), (">=", 2)] {
            for c in [0, 7, 10, 100, 1_000, 9_999, 10_000, 65_535] {
                let nodes = [yes(), label(2), node(operation, kind, 0, 1, c)];
                told(list, &nodes, &format!("{letter}(true U{sign}{c} L2)"));
            }
        }
        for c in [0, 7, 10, 99, 100, 255] {
            let nodes = [yes(), label(2), node(operation, 3, 0, 1, c)];
            told(list, &nodes, &format!("{letter}(true U=={c} L2)"));
        }
    }
}

/// The right operand may stand first, or between the parts of the left one.
fn orders(list: &mut List) {
    told(list, &[label(1), yes(), plain(AND, 1, 0)], "(true & L1)");
    told(list, &[label(2), yes(), node(A, 1, 1, 0, 14)], "A(true U<=14 L2)");
    told(list, &[label(2), yes(), node(E, 3, 1, 0, 14)], "E(true U==14 L2)");
    let between = [label(0), label(1), label(2), plain(NOT, 1, 0), node(E, 1, 2, 0, 3), plain(OR, 3, 4)];
    told(list, &between, "(!L1 | E(L2 U<=3 L0))");
    let late = [yes(), yes(), label(5), plain(NOT, 0, 0), plain(AND, 1, 2), plain(OR, 4, 3), plain(NOT, 5, 0)];
    told(list, &late, "!((true & L5) | !true)");
}

fn outputs(list: &mut List) {
    let three = [yes(), label(2), node(A, 1, 0, 1, 14)];
    let sorts = [("true", vec![yes()]), ("three nodes", three.to_vec()), ("63 nots", nots(64))];
    for (name, nodes) in sorts.into_iter().chain([("532 bytes", longest_of_64())]) {
        let (rule, length) = (rule::bytes(&nodes), text(&nodes).len());
        for output in [length, length + 1, length + 40, 4_096] {
            let told = Expected::Text(String::from_utf8_lossy(&text(&nodes)).into_owned());
            add(list, &format!("row 66 passed: {name} written, {output} bytes"), write(rule.clone(), output), told);
        }
        for output in [0, 1, length / 2, length - 1] {
            let short = Expected::Outcome(66, 0, 5);
            add(list, &format!("row 66: {name} written, {output} bytes"), write(rule.clone(), output), short);
        }
    }
}

pub fn all(list: &mut List) {
    forms(list);
    orders(list);
    outputs(list);
}

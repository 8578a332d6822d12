//! The small input of each refusal, with what is left in the tables.

use crate::common::{arrow, call, node, told, Told, LENT_MARK, LENT_NUMBER};
use bench::bytes::{self, Arrow, Node};

fn good_chart() -> Vec<u8> {
    bytes::chart(&[1, 2, 4], &[arrow(0, 1, 5, 10), arrow(1, 2, 0, 4), arrow(2, 0, 20, 65_535)])
}

fn good_rule() -> Vec<u8> {
    bytes::rule(&[node(0, 0, 0, 0, 0), node(1, 0, 2, 0, 0), node(6, 1, 0, 1, 13)])
}

fn refused(chart: &[u8], rule: &[u8], marks: usize, scratch: usize) -> Told {
    let answer = call(chart, rule, marks, scratch);
    assert!(answer.marks.iter().all(|&mark| mark == LENT_MARK));
    let (cleared, kept) = answer.scratch.split_at(if answer.outcome.number == 19 { scratch - 1 } else { 0 });
    assert!(cleared.iter().all(|&number| number == 0));
    assert!(kept.iter().all(|&number| number == LENT_NUMBER));
    told(answer.outcome)
}

fn chart_refused(chart: &[u8]) -> Told {
    refused(chart, &good_rule(), 9, 12)
}

fn arrows_refused(n: usize, arrows: &[Arrow]) -> Told {
    chart_refused(&bytes::chart(&vec![0; n], arrows))
}

fn rule_refused(rule: &[u8]) -> Told {
    refused(&good_chart(), rule, 9, 12)
}

fn nodes_refused(nodes: &[Node]) -> Told {
    rule_refused(&bytes::rule(nodes))
}

/// The bytes with one of them changed.
fn with(mut bytes: Vec<u8>, at: usize, value: u8) -> Vec<u8> {
    bytes[at] = value;
    bytes
}

#[test]
fn head_of_chart() {
    assert_eq!(chart_refused(&[]), (1, 0, 1));
    assert_eq!(chart_refused(&with(good_chart(), 0, 2)), (2, 0, 1));
    assert_eq!(chart_refused(&with(good_chart(), 4, 38)), (3, 0, 1));
    assert_eq!(chart_refused(&with(good_chart(), 6, 0)), (4, 0, 1));
    assert_eq!(chart_refused(&with(good_chart(), 5, 9)), (4, 0, 1));
    assert_eq!(chart_refused(&with(with(good_chart(), 7, 8), 8, 1)), (5, 0, 1));
    assert_eq!(chart_refused(&with(good_chart(), 8, 2)), (6, 0, 1));
}

#[test]
fn arrows_of_chart() {
    let turn = arrow(0, 0, 1, 1);
    assert_eq!(arrows_refused(3, &[arrow(0, 1, 5, 4), arrow(0, 3, 1, 1)]), (7, 1, 1));
    assert_eq!(arrows_refused(1, &[turn, arrow(0, 0, 5, 4)]), (8, 1, 1));
    assert_eq!(arrows_refused(1, &[turn, arrow(0, 0, 65_535, 65_535)]), (8, 1, 1));
    assert_eq!(arrows_refused(2, &[turn]), (9, 1, 1));
}

#[test]
fn head_of_rule() {
    assert_eq!(rule_refused(&[]), (10, 0, 3));
    assert_eq!(rule_refused(&with(good_rule(), 0, 0)), (11, 0, 3));
    assert_eq!(rule_refused(&with(good_rule(), 4, 30)), (12, 0, 3));
    assert_eq!(rule_refused(&with(good_rule(), 6, 65)), (13, 0, 3));
    assert_eq!(rule_refused(&with(good_rule(), 6, 2)), (13, 0, 3));
}

#[test]
fn nodes_of_rule() {
    let leaf = node(0, 0, 0, 0, 0);
    let wrong = [
        node(7, 0, 0, 0, 0),
        node(0, 0, 1, 0, 0),
        node(1, 0, 16, 0, 0),
        node(2, 1, 0, 0, 0),
        node(2, 0, 0, 1, 0),
        node(3, 0, 0, 0, 1),
        node(5, 0, 0, 0, 1),
        node(6, 4, 0, 0, 1),
        node(3, 3, 0, 0, 0),
        node(5, 3, 0, 0, 256),
        node(6, 3, 0, 0, 65_535),
    ];
    for form in wrong {
        assert_eq!(nodes_refused(&[node(2, 0, 9, 0, 0), form]), (14, 1, 3));
    }
    assert_eq!(nodes_refused(&[node(2, 0, 0, 0, 0)]), (15, 0, 3));
    assert_eq!(nodes_refused(&[node(5, 3, 0, 0, 255)]), (15, 0, 3));
    assert_eq!(nodes_refused(&[leaf, leaf, node(5, 1, 0, 2, 0)]), (15, 2, 3));
    assert_eq!(nodes_refused(&[leaf, node(3, 0, 0, 0, 0)]), (16, 0, 3));
    assert_eq!(nodes_refused(&[leaf, leaf, node(2, 0, 0, 0, 0)]), (16, 1, 3));
}

#[test]
fn tables() {
    assert_eq!(refused(&good_chart(), &good_rule(), 8, 11), (17, 0, 5));
    assert_eq!(refused(&good_chart(), &good_rule(), 9, 11), (18, 0, 5));
    let leaf = node(0, 0, 0, 0, 0);
    let deep = bytes::rule(&[leaf, leaf, node(6, 3, 0, 1, 0), leaf, node(5, 1, 2, 3, 9)]);
    assert_eq!(refused(&good_chart(), &deep, 15, 767), (18, 0, 5));
    assert_eq!(call(&good_chart(), &deep, 15, 768).outcome.number, 0);
    let still = bytes::chart(&[0], &[arrow(0, 0, 0, 0)]);
    assert_eq!(refused(&still, &deep, 5, 257), (19, 0, 1));
}

/// What is told of a chart of n states.
fn timelock(n: usize, arrows: &[Arrow]) -> Told {
    refused(&bytes::chart(&vec![0; n], arrows), &good_rule(), 3 * n, 4 * n + 1)
}

/// Whether the chart is accepted.
fn passed(n: usize, arrows: &[Arrow]) -> bool {
    call(&bytes::chart(&vec![0; n], arrows), &good_rule(), 3 * n, 4 * n).outcome.number == 0
}

#[test]
fn time_stands_still() {
    assert_eq!(timelock(1, &[arrow(0, 0, 0, 0)]), (19, 0, 1));
    assert!(passed(1, &[arrow(0, 0, 0, 1)]) && passed(1, &[arrow(0, 0, 0, 3)]) && passed(1, &[arrow(0, 0, 0, 65_535)]));
    // One of two arrows side by side is enough.
    assert!(passed(1, &[arrow(0, 0, 0, 0), arrow(0, 0, 0, 1)]));
    assert_eq!(timelock(2, &[arrow(0, 1, 0, 0), arrow(1, 0, 0, 0)]), (19, 0, 1));
    assert!(passed(2, &[arrow(0, 1, 0, 0), arrow(1, 0, 0, 3)]));
    // An arrow on no loop doesn't help; a loop that can be left does no harm.
    assert_eq!(timelock(2, &[arrow(0, 1, 1, 1), arrow(1, 1, 0, 0)]), (19, 0, 1));
    assert!(passed(2, &[arrow(0, 1, 1, 1), arrow(1, 1, 0, 1)]));
    assert!(passed(2, &[arrow(0, 0, 0, 0), arrow(0, 1, 0, 0), arrow(1, 1, 1, 1)]));
    // State 0 can leave the loop of 1 and 3, state 2 leads there alone.
    let arrows = [arrow(0, 1, 0, 0), arrow(0, 0, 0, 1), arrow(2, 3, 0, 9), arrow(1, 3, 0, 0), arrow(3, 1, 0, 0)];
    assert_eq!(timelock(4, &arrows), (19, 1, 1));
}

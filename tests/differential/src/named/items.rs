//! The thirteen items and the listing of the paper, kinds of rules and rows of tables.

use crate::bytes::chart::{arrow, Chart, NO_END};
use crate::bytes::rule::{self, node, plain, Node, A, AND, AT_LEAST, AT_MOST, E, EXACTLY, LABEL, NOT, OR, TRUE};
use crate::calls::compare::Kind;
use crate::cases::case::{Case, Table};
use crate::named::expected::{add, exact, exact_count, one, row, short, undo, Expected, Named};

fn truth() -> Node {
    plain(TRUE, 0, 0)
}

fn label(number: usize) -> Node {
    plain(LABEL, number, 0)
}

/// true until L(number)
fn eventually(operation: u8, kind: u8, number: usize, c: usize) -> Vec<Node> {
    vec![truth(), label(number), node(operation, kind, 0, 1, c)]
}

/// not L2 until L2
fn not_yet(operation: u8, kind: u8, c: usize) -> Vec<Node> {
    vec![label(2), plain(NOT, 0, 0), label(2), node(operation, kind, 1, 2, c)]
}

fn item(list: &mut Vec<Named>, number: u32, chart: &Chart, nodes: &[Node], marks: &'static str) {
    add(list, &format!("item {number}"), exact(chart, nodes), Expected::Last(marks));
    let greatest = nodes.iter().map(|node| node.c).max();
    let counted = if greatest > Some(255) { Expected::Outcome(63, 2, 3) } else { Expected::Last(marks) };
    add(list, &format!("item {number}, count"), exact_count(chart, nodes), counted);
}

fn thirteen(list: &mut Vec<Named>) {
    let (short, undo, one) = (short(), undo(), one());
    item(list, 1, &short, &eventually(E, AT_MOST, 2, 5), "111");
    item(list, 2, &short, &eventually(E, AT_MOST, 2, 4), "011");
    item(list, 3, &short, &eventually(A, AT_MOST, 2, 14), "111");
    item(list, 4, &short, &eventually(A, AT_MOST, 2, 13), "011");
    item(list, 5, &undo, &eventually(A, AT_MOST, 2, 14), "001");
    item(list, 6, &short, &not_yet(E, AT_LEAST, 14), "100");
    item(list, 7, &short, &not_yet(E, AT_LEAST, 15), "000");
    item(list, 8, &undo, &not_yet(E, AT_LEAST, 15), "110");
    item(list, 9, &short, &not_yet(A, AT_LEAST, 5), "100");
    item(list, 10, &short, &not_yet(A, AT_LEAST, 6), "000");
    item(list, 11, &one, &eventually(E, AT_LEAST, 0, 0), "0");
    let not_l0 = [truth(), label(0), plain(NOT, 1, 0), node(E, AT_MOST, 0, 2, 0)];
    item(list, 12, &one, &not_l0, "1");
    let long = [truth(), truth(), node(E, AT_LEAST, 0, 1, 65_535)];
    item(list, 13, &one, &long, "1");
}

fn listing(list: &mut Vec<Named>) {
    let case = exact(&short(), &eventually(A, AT_MOST, 2, 13));
    add(list, "listing", case, Expected::Marks("111001011"));
    let case = exact_count(&short(), &eventually(A, AT_MOST, 2, 13));
    add(list, "listing, count", case, Expected::Marks("111001011"));
}

/// 0 to 1 and 1 to 2 with one duration each, then 2 to 2 for good; label 2 at state 2.
fn two_steps(first: u16, second: u16) -> Chart {
    let arrows = vec![arrow(0, 1, first, first), arrow(1, 2, second, second), arrow(2, 2, 1, 1)];
    Chart { labels: vec![0, 0, 4], arrows }
}

/// Sums about the largest bound, and no end against it.
fn largest(list: &mut Vec<Named>) {
    let (below, at, above) = (two_steps(32_767, 32_767), two_steps(32_768, 32_767), two_steps(32_768, 32_768));
    let mut test = |name: &str, chart: &Chart, nodes: Vec<Node>, marks| {
        add(list, &format!("largest: {name}"), exact(chart, &nodes), Expected::Last(marks));
    };
    for operation in [E, A] {
        test("65,535 at most 65,534", &at, eventually(operation, AT_MOST, 2, 65_534), "011");
        test("65,535 at most 65,535", &at, eventually(operation, AT_MOST, 2, 65_535), "111");
        test("65,536 at most 65,535", &above, eventually(operation, AT_MOST, 2, 65_535), "011");
        test("65,534 at least 65,535", &below, not_yet(operation, AT_LEAST, 65_535), "000");
        test("65,535 at least 65,535", &at, not_yet(operation, AT_LEAST, 65_535), "100");
        test("65,536 at least 65,535", &above, not_yet(operation, AT_LEAST, 65_535), "100");
    }
    let mut unending = two_steps(1, 1);
    unending.arrows[1].most = NO_END;
    test("A, no end at most 65,535", &unending, eventually(A, AT_MOST, 2, 65_535), "001");
    test("E, no end at most 2", &unending, eventually(E, AT_MOST, 2, 2), "111");
    test("E, no end at least 65,535", &unending, not_yet(E, AT_LEAST, 65_535), "110");
    test("A, no end at least 3", &unending, not_yet(A, AT_LEAST, 3), "000");
}

fn kind(list: &mut Vec<Named>, name: &str, nodes: &[Node], wanted: Kind) {
    let case = Case::Kind { rule: rule::bytes(nodes) };
    add(list, &format!("kind of {name}"), case, Expected::Kind(wanted));
}

fn kinds(list: &mut Vec<Named>) {
    kind(list, "true", &[truth()], Kind::Both);
    kind(list, "a label", &[label(15)], Kind::Both);
    kind(list, "not true", &[truth(), plain(NOT, 0, 0)], Kind::Both);
    kind(list, "A-until", &eventually(A, AT_MOST, 2, 5), Kind::AllRuns);
    kind(list, "E-until", &eventually(E, AT_LEAST, 2, 5), Kind::SomeRun);
    let until = |operation| node(operation, AT_MOST, 0, 1, 5);
    kind(list, "A-until, exactly", &eventually(A, EXACTLY, 2, 5), Kind::AllRuns);
    kind(list, "E-until, exactly", &eventually(E, EXACTLY, 2, 5), Kind::SomeRun);
    let exactly = |operation, a| node(operation, EXACTLY, a, a + 1, 0);
    let in_the_other = [truth(), truth(), exactly(A, 0), truth(), exactly(E, 2)];
    kind(list, "E exactly over A exactly", &in_the_other, Kind::Neither);
    let under_not = [truth(), truth(), exactly(A, 0), plain(NOT, 2, 0), truth(), exactly(E, 3)];
    kind(list, "E exactly over not A exactly", &under_not, Kind::SomeRun);
    kind(list, "not A-until", &[truth(), truth(), until(A), plain(NOT, 2, 0)], Kind::SomeRun);
    kind(list, "not E-until", &[truth(), truth(), until(E), plain(NOT, 2, 0)], Kind::AllRuns);
    for (first, second, wanted) in [(A, A, Kind::AllRuns), (E, E, Kind::SomeRun), (A, E, Kind::Neither)] {
        for top in [AND, OR, A, E] {
            let last = if top == A || top == E { node(top, AT_MOST, 2, 5, 1) } else { plain(top, 2, 5) };
            let nodes = [truth(), truth(), until(first), truth(), truth(), node(second, AT_LEAST, 3, 4, 2), last];
            let clash = (top == A && first == E) || (top == E && first == A);
            let name = format!("operation {top} over {first} and {second}");
            kind(list, &name, &nodes, if clash { Kind::Neither } else { wanted });
        }
    }
}

/// Rows at and past the end of each table, and products that no longer fit.
fn rows(list: &mut Vec<Named>) {
    let (overview, detail) = ([1, 0, 1, 1, 0, 0], [1, 0, 1, 1, 0, 0, 1, 1]);
    let cases = [
        (Table::Overview, 3, 0, Some(0)),
        (Table::Overview, 3, 1, Some(3)),
        (Table::Overview, 3, 2, None),
        (Table::Overview, 6, 0, Some(0)),
        (Table::Overview, 7, 0, None),
        (Table::Detail, 4, 1, Some(4)),
        (Table::Detail, 3, 2, None),
        (Table::Detail, 8, 0, Some(0)),
        (Table::Detail, 1, 7, Some(7)),
        (Table::Detail, 1, 8, None),
        (Table::Overview, 0, 0, None),
        (Table::Detail, 0, usize::MAX, None),
        (Table::Detail, 1, usize::MAX, None),
        (Table::Detail, usize::MAX, 1, None),
        (Table::Detail, usize::MAX, usize::MAX, None),
        (Table::Detail, 1 << (usize::BITS / 2), 1 << (usize::BITS / 2), None),
        (Table::Overview, 2, 1 << (usize::BITS - 1), None),
    ];
    for (choice, n, t, start) in cases {
        let name = format!("row {t} of {n} in {choice:?}");
        let expected = start.map_or(Expected::EmptyPart, |from| Expected::Part(from, n));
        add(list, &name, row(&overview, &detail, choice, n, t), expected);
    }
    for choice in [Table::Overview, Table::Detail] {
        add(list, "row of empty tables", row(&[], &[], choice, 1, 0), Expected::EmptyPart);
    }
}

pub fn all(list: &mut Vec<Named>) {
    thirteen(list);
    listing(list);
    largest(list);
    kinds(list);
    rows(list);
}

//! Loops that can be taken in no time: a run counts only if its moments pass every number, in E and in A alike. Staying at
//! one moment for ever is no run, going round a loop with most above 0 is one.

use crate::bytes::chart::{arrow, Chart, NO_END};
use crate::bytes::rule::{node, plain, Node, A, AT_LEAST, AT_MOST, E, LABEL, NOT, TRUE};
use crate::named::charts::List;
use crate::named::counts::first_until_second;
use crate::named::expected::{add, exact, exact_count, undo, Expected};

/// true until L0
fn eventually(operation: u8, kind: u8, c: usize) -> Vec<Node> {
    vec![plain(TRUE, 0, 0), plain(LABEL, 0, 0), node(operation, kind, 0, 1, c)]
}

/// not L0 until L0
fn not_yet(operation: u8, kind: u8, c: usize) -> Vec<Node> {
    vec![plain(LABEL, 0, 0), plain(NOT, 0, 0), plain(LABEL, 0, 0), node(operation, kind, 1, 2, c)]
}

/// States 0 and 1 hand a job back and forth; label 0 at state 1.
pub fn handing(there: (u16, u16), back: (u16, u16)) -> Chart {
    Chart { labels: vec![0, 1], arrows: vec![arrow(0, 1, there.0, there.1), arrow(1, 0, back.0, back.1)] }
}

/// State 0 leads to itself by that slot, and to state 1 in no time; label 0 there.
pub fn staying(slot: (u16, u16)) -> Chart {
    let arrows = vec![arrow(0, 0, slot.0, slot.1), arrow(0, 1, 0, 0), arrow(1, 1, 1, 1)];
    Chart { labels: vec![0, 1], arrows }
}

/// State 0 leads to state 1 by that slot, and that one back in no time, or to state 2 in 2 to 4; label 0 there.
pub fn turning(slot: (u16, u16)) -> Chart {
    let arrows = vec![arrow(0, 1, slot.0, slot.1), arrow(1, 0, 0, 0), arrow(1, 2, 2, 4), arrow(2, 2, 1, 1)];
    Chart { labels: vec![0, 0, 1], arrows }
}

/// The last node's marks, by check and, up to the greatest bound that is counted to, by count.
fn marked(list: &mut List, name: &str, chart: &Chart, nodes: &[Node], marks: &'static str) {
    add(list, &format!("{name}, check"), exact(chart, nodes), Expected::Last(marks));
    if nodes.iter().all(|node| node.c <= 255) {
        add(list, &format!("{name}, count"), exact_count(chart, nodes), Expected::Last(marks));
    }
}

/// One chart under untils of label 0: each with its bounds, and the marks.
struct Under<'a> {
    list: &'a mut List,
    name: &'a str,
    chart: Chart,
}

impl Under<'_> {
    fn test(&mut self, first: &str, (operation, kind): (u8, u8), bounds: &[usize], marks: &'static str) {
        let letter = if operation == E { "E" } else { "A" };
        let sign = if kind == AT_MOST { "at most" } else { "at least" };
        for &c in bounds {
            let nodes = if first == "true" { eventually(operation, kind, c) } else { not_yet(operation, kind, c) };
            let name = format!("{}: {letter}({first} until L0, {sign} {c})", self.name);
            marked(self.list, &name, &self.chart, &nodes, marks);
        }
    }
}

const E_MOST: (u8, u8) = (E, AT_MOST);
const E_LEAST: (u8, u8) = (E, AT_LEAST);
const A_MOST: (u8, u8) = (A, AT_MOST);
const A_LEAST: (u8, u8) = (A, AT_LEAST);

/// Either state is come to again and again, at moments past every bound.
fn back_and_forth(list: &mut List) {
    let mut under = Under { list, name: "0 to 3 each way", chart: handing((0, 3), (0, 3)) };
    under.test("true", E_MOST, &[0, 3], "11");
    under.test("true", A_MOST, &[0, 2], "01");
    under.test("true", A_MOST, &[3, 255, 65_535], "11");
    under.test("true", E_LEAST, &[0, 99, 255, 65_535], "11");
    under.test("true", A_LEAST, &[0, 1, 99, 255, 65_535], "11");
    under.test("not L0", E_LEAST, &[1, 3], "10");
    under.test("not L0", E_LEAST, &[4, 255], "00");
    under.test("not L0", A_LEAST, &[0], "11");
    under.test("not L0", A_LEAST, &[1], "00");
    under.test("not L0", A_MOST, &[2], "01");
    under.test("not L0", A_MOST, &[3], "11");
    let mut under = Under { list, name: "0 to 0 there, 0 to 3 back", chart: handing((0, 0), (0, 3)) };
    under.test("true", A_MOST, &[0, 1], "11");
    under.test("true", A_LEAST, &[0, 7, 65_535], "11");
    under.test("not L0", E_LEAST, &[0], "11");
    under.test("not L0", E_LEAST, &[1], "00");
    // Nobody has label 0: time passes for ever without it.
    let chart = Chart { labels: vec![0, 0], ..handing((0, 3), (0, 3)) };
    let mut under = Under { list, name: "0 to 3 each way, no L0", chart };
    under.test("true", A_MOST, &[0, 255, 65_535], "00");
    under.test("true", A_LEAST, &[0, 1, 65_535], "00");
    under.test("true", E_LEAST, &[0, 1], "00");
}

/// At state 0 one may stay in no time: for ever only if the slot has more.
fn staying_or_not(list: &mut List) {
    let mut under = Under { list, name: "staying 0 to 0", chart: staying((0, 0)) };
    under.test("true", E_MOST, &[0], "11");
    under.test("true", A_MOST, &[0, 1, 255, 65_535], "11");
    under.test("true", A_LEAST, &[0, 1, 5, 255, 65_535], "11");
    under.test("not L0", A_MOST, &[0, 1], "11");
    under.test("not L0", E_LEAST, &[0], "11");
    under.test("not L0", E_LEAST, &[1, 255], "00");
    under.test("not L0", A_LEAST, &[0], "11");
    under.test("not L0", A_LEAST, &[1], "00");
    for (name, slot) in [("0 to 1", (0, 1)), ("0 to 3", (0, 3)), ("0 to no end", (0, NO_END))] {
        let mut under = Under { list, name: &format!("staying {name}"), chart: staying(slot) };
        under.test("true", E_MOST, &[0], "11");
        under.test("true", A_MOST, &[0, 1, 255, 65_535], "01");
        under.test("true", A_LEAST, &[0, 1, 5, 255, 65_535], "01");
        under.test("not L0", E_LEAST, &[0], "11");
        under.test("not L0", E_LEAST, &[1, 255, 65_535], "10");
        under.test("not L0", A_LEAST, &[0], "01");
        under.test("not L0", A_LEAST, &[1], "00");
    }
    // One of two arrows side by side is enough.
    let mut chart = staying((0, 0));
    chart.arrows.push(arrow(0, 0, 0, 1));
    let mut under = Under { list, name: "staying 0 to 0 or 0 to 1", chart };
    under.test("true", A_MOST, &[0, 65_535], "01");
    under.test("true", A_LEAST, &[0, 5], "01");
}

/// A loop of two in no time that can be left, and the same with a minute on it.
fn turning_or_not(list: &mut List) {
    let mut under = Under { list, name: "turning 0 to 0", chart: turning((0, 0)) };
    under.test("true", E_MOST, &[1], "001");
    under.test("true", E_MOST, &[2], "111");
    under.test("true", A_MOST, &[3], "001");
    under.test("true", A_MOST, &[4, 255], "111");
    under.test("true", A_LEAST, &[0, 1, 255, 65_535], "111");
    under.test("not L0", E_LEAST, &[1, 4], "110");
    under.test("not L0", E_LEAST, &[5], "000");
    under.test("not L0", A_LEAST, &[0], "111");
    under.test("not L0", A_LEAST, &[1, 2], "110");
    under.test("not L0", A_LEAST, &[3], "000");
    let mut under = Under { list, name: "turning 0 to 1", chart: turning((0, 1)) };
    under.test("true", E_MOST, &[1], "001");
    under.test("true", E_MOST, &[2], "111");
    under.test("true", A_MOST, &[4, 255, 65_535], "001");
    under.test("true", A_LEAST, &[0, 1, 65_535], "001");
    under.test("not L0", E_LEAST, &[5, 255, 65_535], "110");
    under.test("not L0", A_LEAST, &[0], "001");
    under.test("not L0", A_LEAST, &[1, 2, 3], "000");
}

/// From a loop in no time there are two ways out: to label 1 and to neither operand.
fn two_ways_out(list: &mut List) {
    let chart = |out: usize| {
        let ring =
            vec![arrow(0, 1, 0, 0), arrow(1, 2, 0, 0), arrow(2, 0, 0, 0), arrow(1, 3, 0, 0), arrow(2, out, 1, 1)];
        let ends = vec![arrow(3, 3, 1, 1), arrow(4, 4, 1, 1)];
        Chart { labels: vec![1, 1, 1, 2, 0], arrows: [ring, ends].concat() }
    };
    let mut test = |name: &str, chart: &Chart, (operation, kind), c, marks| {
        marked(list, &format!("{name} {c}"), chart, &first_until_second(operation, kind, c), marks);
    };
    test("both ways to the second operand, A at most", &chart(3), A_MOST, 0, "00010");
    test("both ways to the second operand, A at most", &chart(3), A_MOST, 1, "11110");
    test("both ways to the second operand, A at least", &chart(3), A_LEAST, 0, "11110");
    test("both ways to the second operand, E at least", &chart(3), E_LEAST, 1, "11100");
    test("both ways to the second operand, E at least", &chart(3), E_LEAST, 2, "00000");
    test("one way to neither operand, A at most", &chart(4), A_MOST, 255, "00010");
    test("one way to neither operand, A at least", &chart(4), A_LEAST, 0, "00010");
    test("one way to neither operand, E at most", &chart(4), E_MOST, 0, "11110");
    test("one way to neither operand, E at least", &chart(4), E_LEAST, 1, "00000");
}

/// A loop in no time added to a chart of the paper: nothing changes, since it can be left.
fn beside_the_paper(list: &mut List) {
    let mut chart = undo();
    chart.arrows.extend([arrow(0, 0, 0, 0), arrow(1, 1, 0, 0), arrow(2, 2, 0, 0)]);
    let mut test = |name: &str, nodes: &[Node], marks| {
        marked(list, &format!("Undo and 0 to 0 loops, {name}"), &chart, nodes, marks);
    };
    let not_l2 = |operation, kind, c| {
        vec![plain(LABEL, 2, 0), plain(NOT, 0, 0), plain(LABEL, 2, 0), node(operation, kind, 1, 2, c)]
    };
    test("item 5", &[plain(TRUE, 0, 0), plain(LABEL, 2, 0), node(A, AT_MOST, 0, 1, 14)], "001");
    test("item 8", &not_l2(E, AT_LEAST, 15), "110");
    chart.arrows.remove(3);
    let mut test = |name: &str, nodes: &[Node], marks| {
        marked(list, &format!("Short and 0 to 0 loops, {name}"), &chart, nodes, marks);
    };
    test("item 6", &not_l2(E, AT_LEAST, 14), "100");
    test("item 7", &not_l2(E, AT_LEAST, 15), "000");
    test("item 9", &not_l2(A, AT_LEAST, 5), "100");
    test("item 10", &not_l2(A, AT_LEAST, 6), "000");
}

/// A ring of 255 states in no time, from one of which label 0 is a minute away; or with an arrow of 0 to 1 on it.
fn largest(list: &mut List) {
    let ring = |most| {
        let mut arrows: Vec<_> =
            (0..255).map(|i| arrow(i, (i + 1) % 255, 0, if i == 100 { most } else { 0 })).collect();
        arrows.extend([arrow(40, 255, 1, 1), arrow(255, 255, 1, 1)]);
        Chart { labels: [vec![0; 255], vec![1]].concat(), arrows }
    };
    let backward = |mut chart: Chart| {
        let number: Vec<usize> = (0..255).rev().chain([255]).collect();
        chart.renumber(&number);
        chart
    };
    let all: &'static str = "1".repeat(256).leak();
    let last: &'static str = ("0".repeat(255) + "1").leak();
    let others: &'static str = ("1".repeat(255) + "0").leak();
    for (order, turned) in [("", false), (", numbered back", true)] {
        let of = |most| if turned { backward(ring(most)) } else { ring(most) };
        let mut under = Under { list, name: &format!("a ring of 255 in no time{order}"), chart: of(0) };
        under.test("true", E_MOST, &[0], last);
        under.test("true", A_MOST, &[0], last);
        under.test("true", A_MOST, &[1, 255], all);
        under.test("true", A_LEAST, &[0, 255, 2_500], all);
        under.test("not L0", E_LEAST, &[1], others);
        under.test("not L0", E_LEAST, &[2], "0".repeat(256).leak());
        let mut under = Under { list, name: &format!("a ring of 255, one arrow 0 to 1{order}"), chart: of(1) };
        under.test("true", E_MOST, &[1], all);
        under.test("true", A_MOST, &[1, 255, 2_500], last);
        under.test("true", A_LEAST, &[0, 255], last);
        under.test("not L0", E_LEAST, &[2, 255, 2_500], others);
    }
}

pub fn all(list: &mut List) {
    back_and_forth(list);
    staying_or_not(list);
    turning_or_not(list);
    two_ways_out(list);
    beside_the_paper(list);
    largest(list);
}

//! Count: rows 63 and 17 to 19 of the refusal table, each with the neighbour that passes, and bounds of "at least 0".

use crate::bytes::chart::{arrow, Chart};
use crate::bytes::rule::{self, node, plain, Node, A, AT_LEAST, AT_MOST, E, EXACTLY, LABEL, NOT, TRUE};
use crate::named::charts::List;
use crate::named::expected::{add, count, exact_count, just_true, one, short, undo, Expected};

const UNTILS: [(u8, u8, &str); 4] =
    [(E, AT_MOST, "E at most"), (E, AT_LEAST, "E at least"), (A, AT_MOST, "A at most"), (A, AT_LEAST, "A at least")];

/// true until true; node 2 is the until.
fn always(operation: u8, kind: u8, c: usize) -> Vec<Node> {
    vec![plain(TRUE, 0, 0), plain(TRUE, 0, 0), node(operation, kind, 0, 1, c)]
}

/// L0 until L1
pub fn first_until_second(operation: u8, kind: u8, c: usize) -> Vec<Node> {
    vec![plain(LABEL, 0, 0), plain(LABEL, 1, 0), node(operation, kind, 0, 1, c)]
}

/// true until L(number)
fn eventually(operation: u8, kind: u8, number: usize, c: usize) -> Vec<Node> {
    vec![plain(TRUE, 0, 0), plain(LABEL, number, 0), node(operation, kind, 0, 1, c)]
}

fn bounds(list: &mut List) {
    let mut test = |name: &str, nodes: &[Node], number, place, entry| {
        add(list, name, exact_count(&short(), nodes), Expected::Outcome(number, place, entry));
    };
    for (operation, kind, until) in UNTILS {
        let of = |c| always(operation, kind, c);
        test(&format!("row 63 passed: {until} 255"), &of(255), 0, 0, 0);
        for c in [256, 257, 511, 512, 65_535] {
            test(&format!("row 63: {until} {c}"), &of(c), 63, 2, 3);
        }
    }
    let under_not = |c| [always(E, AT_MOST, c), vec![plain(NOT, 2, 0)]].concat();
    test("row 63: an inner node", &under_not(256), 63, 2, 3);
    test("row 63 passed: an inner node", &under_not(255), 0, 0, 0);
    // Node 4 is an until over node 2, another one.
    let two =
        |inner, outer| [always(A, AT_LEAST, inner), vec![plain(TRUE, 0, 0), node(E, AT_LEAST, 2, 3, outer)]].concat();
    test("row 63: nodes 2 and 4", &two(256, 300), 63, 2, 3);
    test("row 63: nodes 2 and 4, the higher bound first", &two(300, 256), 63, 2, 3);
    test("row 63: node 2 of 2 and 4", &two(256, 255), 63, 2, 3);
    test("row 63: node 4 of 2 and 4", &two(255, 256), 63, 4, 3);
    test("row 63 passed: nodes 2 and 4", &two(255, 255), 0, 0, 0);
}

/// Inputs that meet the conditions of two rows at once.
fn order(list: &mut List) {
    let mut test = |name: &str, chart: &Chart, nodes: &[Node], number, place, entry| {
        add(list, name, count(chart.bytes(), rule::bytes(nodes), 0, 0), Expected::Outcome(number, place, entry));
    };
    let still = Chart { labels: vec![0], arrows: vec![arrow(0, 0, 0, 0)] };
    let bare = Chart { labels: vec![0, 0], arrows: vec![arrow(0, 0, 1, 1)] };
    let late = always(E, AT_MOST, 256);
    test("63 goes before 17 and 18", &short(), &late, 63, 2, 3);
    test("63 goes before 17 to 19", &still, &late, 63, 2, 3);
    test("17 goes where 63 is passed", &still, &always(E, AT_MOST, 255), 17, 0, 5);
    test("9 goes before 63", &bare, &late, 9, 1, 1);
    test("14 goes before 63", &short(), &always(E, EXACTLY, 256), 14, 2, 3);
    test("15 goes before 63", &short(), &[plain(TRUE, 0, 0), node(E, AT_MOST, 0, 1, 256)], 15, 1, 3);
    test("16 goes before 63", &short(), &[plain(TRUE, 0, 0), node(E, AT_MOST, 0, 0, 256)], 16, 0, 3);
    let unused = [late.clone(), just_true()].concat();
    test("16 of a higher node goes before 63", &short(), &[unused, vec![plain(NOT, 3, 0)]].concat(), 16, 2, 3);
    for (name, chart) in [("with all of its buffers", short()), ("with a 0 to 0 self loop", still)] {
        let n = chart.states();
        let case = count(chart.bytes(), rule::bytes(&late), 3 * n + 5, 256 * n + 5);
        add(list, &format!("row 63 {name}"), case, Expected::Outcome(63, 2, 3));
    }
}

/// Counts of Short and the paper's rule, given the lengths of marks and scratch.
fn room(list: &mut List) {
    let nodes = eventually(A, AT_MOST, 2, 13);
    let left = Chart { arrows: [short().arrows, vec![arrow(1, 1, 0, 0)]].concat(), ..short() };
    let locked = Chart { labels: vec![1, 2, 4], arrows: vec![arrow(0, 0, 1, 1), arrow(1, 1, 0, 0), arrow(2, 0, 1, 1)] };
    let mut test = |name: &str, chart: &Chart, nodes: &[Node], marks, scratch, expected| {
        add(list, name, count(chart.bytes(), rule::bytes(nodes), marks, scratch), expected);
    };
    let refused = Expected::Outcome;
    let listed = || Expected::Marks("111001011");
    test("10 bytes and 769 numbers", &short(), &nodes, 10, 769, listed());
    test("row 17: 8 bytes", &short(), &nodes, 8, 768, refused(17, 0, 5));
    test("row 17 passed: 9 bytes", &short(), &nodes, 9, 768, listed());
    test("row 18: 767 numbers", &short(), &nodes, 9, 767, refused(18, 0, 5));
    test("row 18: 12 numbers", &short(), &nodes, 9, 12, refused(18, 0, 5));
    test("row 18: no scratch", &short(), &nodes, 9, 0, refused(18, 0, 5));
    test("row 18 passed: 768 numbers", &short(), &nodes, 9, 768, listed());
    test("row 18 passed: 771 numbers", &short(), &nodes, 9, 771, listed());
    test("17 goes before 18 and 19", &locked, &nodes, 8, 767, refused(17, 0, 5));
    test("18 goes before 19", &locked, &nodes, 9, 767, refused(18, 0, 5));
    test("row 19: 768 numbers", &locked, &nodes, 9, 768, refused(19, 1, 1));
    test("row 19: longer buffers", &locked, &nodes, 20, 900, refused(19, 1, 1));
    test("row 19 passed: a 0 to 0 loop that can be left", &left, &nodes, 9, 768, listed());
    test("true alone, 767 numbers", &short(), &just_true(), 3, 767, refused(18, 0, 5));
    test("true alone, 768 numbers", &short(), &just_true(), 3, 768, Expected::Marks("111"));
    test("one state, 255 numbers", &one(), &just_true(), 1, 255, refused(18, 0, 5));
    test("one state, 256 numbers", &one(), &just_true(), 1, 256, Expected::Marks("1"));
}

/// No minute is left to make: any way to the second operand will do.
fn at_least_0(list: &mut List) {
    let mut test = |name: &str, chart: Chart, nodes: Vec<Node>, marks| {
        add(list, &format!("at least 0: {name}"), exact_count(&chart, &nodes), Expected::Last(marks));
    };
    test("E, Short", short(), eventually(E, AT_LEAST, 2, 0), "111");
    test("A, Short", short(), eventually(A, AT_LEAST, 2, 0), "111");
    test("E, Undo", undo(), eventually(E, AT_LEAST, 2, 0), "111");
    test("A, Undo, to and fro for ever", undo(), eventually(A, AT_LEAST, 2, 0), "001");
    test("E, no such label", short(), eventually(E, AT_LEAST, 3, 0), "000");
    test("A, no such label", short(), eventually(A, AT_LEAST, 3, 0), "000");
    test("E, one step of the first operand", short(), first_until_second(E, AT_LEAST, 0), "110");
    test("A, one step of the first operand", undo(), first_until_second(A, AT_LEAST, 0), "110");
    let two_steps = vec![plain(LABEL, 0, 0), plain(LABEL, 2, 0), node(E, AT_LEAST, 0, 1, 0)];
    test("E, the first operand not on the way", short(), two_steps, "001");
}

pub fn all(list: &mut List) {
    bounds(list);
    order(list);
    room(list);
    at_least_0(list);
}

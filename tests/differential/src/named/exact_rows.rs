//! Exact bounds: rows 14, 18, 19 and 60 to 62 of the refusal table, each with the neighbour that passes. What scratch
//! holds afterwards is looked at with every case.

use crate::bytes::chart::{arrow, Chart};
use crate::bytes::rule::{self, node, plain, Node, A, AND, AT_LEAST, AT_MOST, E, EXACTLY, LABEL, NOT, TRUE};
use crate::named::charts::List;
use crate::named::expected::{add, check, count, one, short, show, Expected};

/// true until L2, exactly c; node 2 is the until.
fn exactly(operation: u8, c: usize) -> Vec<Node> {
    vec![plain(TRUE, 0, 0), plain(LABEL, 2, 0), node(operation, EXACTLY, 0, 1, c)]
}

/// Nothing is lent: row 14 goes before 63, 17 and 18.
fn greatest(list: &mut List) {
    let mut test = |name: &str, nodes: &[Node], number, place, entry| {
        let told = || Expected::Outcome(number, place, entry);
        let bytes = || (short().bytes(), rule::bytes(nodes));
        add(list, &format!("{name}, check"), check(bytes().0, bytes().1, 0, 0), told());
        add(list, &format!("{name}, count"), count(bytes().0, bytes().1, 0, 0), told());
        add(list, &format!("{name}, show"), show(bytes(), 0, 0, [2, 0], 0), told());
    };
    for (operation, letter) in [(E, "E"), (A, "A")] {
        for c in [0, 1, 254, 255] {
            test(&format!("row 14 passed: {letter} exactly {c}"), &exactly(operation, c), 17, 0, 5);
        }
        for c in [256, 257, 511, 512, 65_535] {
            test(&format!("row 14: {letter} exactly {c}"), &exactly(operation, c), 14, 2, 3);
        }
    }
    let two = |inner, outer| [exactly(E, inner), vec![plain(TRUE, 0, 0), node(A, EXACTLY, 2, 3, outer)]].concat();
    test("row 14: exactly 256 at nodes 2 and 4", &two(256, 256), 14, 2, 3);
    test("row 14: exactly 256 at node 4", &two(255, 256), 14, 4, 3);
    test("row 14 passed: exactly 255 at nodes 2 and 4", &two(255, 255), 17, 0, 5);
    let mixed = |kind| [exactly(E, 0), vec![plain(TRUE, 0, 0), node(A, kind, 2, 3, 256)]].concat();
    test("row 14: at most 256 made exact", &mixed(EXACTLY), 14, 4, 3);
    let late = rule::bytes(&mixed(AT_MOST));
    let told = Expected::Outcome(63, 4, 3);
    add(list, "row 63: at most 256 beside exactly 0", count(short().bytes(), late.clone(), 0, 0), told);
    add(list, "row 63 is not check's", check(short().bytes(), late, 15, 768), Expected::Outcome(0, 0, 0));
}

/// Rules with an exact bound somewhere, and their length in nodes; then some without one.
fn rules() -> ([(&'static str, Vec<Node>); 5], [(&'static str, Vec<Node>); 4]) {
    let over = |last: Node| [exactly(E, 0), vec![plain(TRUE, 0, 0), last]].concat();
    let deep = [over(node(A, AT_MOST, 2, 3, 65_535)), vec![plain(NOT, 4, 0), plain(NOT, 5, 0)]].concat();
    let first =
        vec![plain(LABEL, 0, 0), plain(TRUE, 0, 0), plain(TRUE, 0, 0), node(A, EXACTLY, 1, 2, 0), plain(AND, 3, 0)];
    let exact = [
        ("E exactly 0", exactly(E, 0)),
        ("A exactly 255", exactly(A, 255)),
        ("E exactly 0 under at least", over(node(E, AT_LEAST, 2, 3, 0))),
        ("E exactly 0 deep down", deep),
        ("A exactly 0 beside a label", first),
    ];
    let until = |operation, kind, c| vec![plain(TRUE, 0, 0), plain(LABEL, 2, 0), node(operation, kind, 0, 1, c)];
    let other = [
        ("E at most 0", until(E, AT_MOST, 0)),
        ("A at least 255", until(A, AT_LEAST, 255)),
        // The third byte of a node, and the last one, may be 3 as well.
        ("label 3", vec![plain(LABEL, 3, 0)]),
        ("A at most 3", until(A, AT_MOST, 3)),
    ];
    (exact, other)
}

fn scratch_of_check(list: &mut List) {
    let (exact, other) = rules();
    let mut test = |name: &str, nodes: &[Node], scratch: usize, number, entry| {
        let case = check(short().bytes(), rule::bytes(nodes), 3 * nodes.len(), scratch);
        add(list, &format!("{name}, {scratch} numbers"), case, Expected::Outcome(number, 0, entry));
    };
    for (name, nodes) in &exact {
        for scratch in [0, 11, 12, 767] {
            test(&format!("row 18: {name}"), nodes, scratch, 18, 5);
        }
        for scratch in [768, 769, 800, 1_600] {
            test(&format!("row 18 passed: {name}"), nodes, scratch, 0, 0);
        }
    }
    for (name, nodes) in &other {
        test(&format!("row 18: {name}"), nodes, 11, 18, 5);
        for scratch in [12, 767, 768, 800] {
            test(&format!("row 18 passed: {name}"), nodes, scratch, 0, 0);
        }
    }
}

/// Short with states 0 and 1 leading to themselves, 1 in 0 to 0 minutes.
fn locked() -> Chart {
    let arrows = vec![arrow(0, 0, 1, 1), arrow(1, 1, 0, 0), arrow(2, 0, 1, 1)];
    Chart { labels: vec![1, 2, 4], arrows }
}

fn order(list: &mut List) {
    let mut test = |name: &str, chart: &Chart, marks, scratch, number, place, entry| {
        let case = check(chart.bytes(), rule::bytes(&exactly(E, 0)), marks, scratch);
        add(list, &format!("exact bound: {name}"), case, Expected::Outcome(number, place, entry));
    };
    test("17 goes before 18 and 19", &locked(), 8, 767, 17, 0, 5);
    test("18 goes before 19", &locked(), 9, 767, 18, 0, 5);
    test("19 with just enough", &locked(), 9, 768, 19, 1, 1);
    test("19 with longer buffers", &locked(), 20, 900, 19, 1, 1);
    test("accepted with longer buffers", &short(), 20, 900, 0, 0, 0);
    let without = check(locked().bytes(), rule::bytes(&[plain(TRUE, 0, 0)]), 9, 900);
    add(list, "no exact bound: 19 with longer buffers", without, Expected::Outcome(19, 1, 1));
    let bytes = |chart: &Chart| (chart.bytes(), rule::bytes(&exactly(E, 0)));
    for (name, scratch, number, place, entry) in [("18", 767, 18, 0, 5), ("19", 800, 19, 1, 1)] {
        let case = show(bytes(&locked()), 9, scratch, [3, 3], 0);
        add(list, &format!("exact bound: {name} goes before 60"), case, Expected::Outcome(number, place, entry));
    }
}

/// Short, true until L2, exactly 5: marked at state 0 alone.
fn scratch_of_show(list: &mut List) {
    let mut test = |name: &str, at: [usize; 2], scratch, output, expected| {
        let bytes = (short().bytes(), rule::bytes(&exactly(E, 5)));
        add(list, &format!("exact bound: {name}"), show(bytes, 9, scratch, at, output), expected);
    };
    let refused = |number, entry| Expected::Outcome(number, 0, entry);
    for scratch in [0, 12, 767] {
        test(&format!("18 of show, {scratch} numbers"), [2, 0], scratch, 18, refused(18, 5));
    }
    for scratch in [768, 769, 770] {
        test(&format!("row 61: {scratch} numbers"), [2, 0], scratch, 18, refused(61, 5));
    }
    for scratch in [771, 772, 900] {
        test(&format!("row 61 passed: {scratch} numbers"), [2, 0], scratch, 18, Expected::Steps(2));
    }
    test("61 goes before 62", [2, 0], 770, 0, refused(61, 5));
    test("60 goes before 61 and 62", [2, 1], 768, 0, refused(60, 3));
    test("row 60: node out of range", [3, 0], 900, 18, refused(60, 3));
    test("row 60: state out of range", [2, 3], 900, 18, refused(60, 3));
    test("row 60: a label", [1, 0], 900, 18, refused(60, 3));
    test("row 60: unmarked E", [2, 1], 900, 18, refused(60, 3));
    test("row 62: 17 bytes", [2, 0], 771, 17, refused(62, 5));
    test("row 62: 17 bytes, longer scratch", [2, 0], 900, 17, refused(62, 5));
    test("row 62: no output", [2, 0], 771, 0, refused(62, 5));
    test("row 62 passed: 19 bytes", [2, 0], 771, 19, Expected::Steps(2));
}

/// The exact bound is another node's: the run that is asked for is one of "at most".
fn beside_a_shown_run(list: &mut List) {
    let most = node(E, AT_MOST, 0, 1, 5);
    let nodes = [vec![plain(TRUE, 0, 0), plain(LABEL, 2, 0), most], exactly_from(3), vec![plain(AND, 2, 5)]].concat();
    let mut test = |name: &str, scratch, expected| {
        let bytes = (short().bytes(), rule::bytes(&nodes));
        add(list, &format!("at most 5 beside exactly 0: {name}"), show(bytes, 21, scratch, [2, 0], 18), expected);
    };
    test("767 numbers", 767, Expected::Outcome(18, 0, 5));
    test("768 numbers", 768, Expected::Outcome(61, 0, 5));
    test("771 numbers", 771, Expected::Run("000000000005000100000000000200000000"));
}

/// A(true until L2, exactly 0), its operands from node t on.
fn exactly_from(t: usize) -> Vec<Node> {
    vec![plain(TRUE, 0, 0), plain(LABEL, 2, 0), node(A, EXACTLY, t, t + 1, 0)]
}

/// The size of count is the same for every rule.
fn scratch_of_count(list: &mut List) {
    for (scratch, number, entry) in [(12, 18, 5), (767, 18, 5), (768, 0, 0), (800, 0, 0)] {
        let case = count(short().bytes(), rule::bytes(&exactly(A, 0)), 9, scratch);
        add(list, &format!("A exactly 0 counted, {scratch} numbers"), case, Expected::Outcome(number, 0, entry));
    }
    for (scratch, number, place, entry) in [(767, 18, 0, 5), (800, 19, 1, 1)] {
        let case = count(locked().bytes(), rule::bytes(&exactly(A, 0)), 9, scratch);
        let told = Expected::Outcome(number, place, entry);
        add(list, &format!("A exactly 0 counted where time is locked, {scratch} numbers"), case, told);
    }
    let single = |scratch| check(one().bytes(), rule::bytes(&exactly(E, 0)), 3, scratch);
    add(list, "E exactly 0 of one state, 255 numbers", single(255), Expected::Outcome(18, 0, 5));
    add(list, "E exactly 0 of one state, 256 numbers", single(256), Expected::Marks("100"));
}

pub fn all(list: &mut List) {
    greatest(list);
    scratch_of_check(list);
    order(list);
    scratch_of_show(list);
    beside_a_shown_run(list);
    scratch_of_count(list);
}
